//! Compares the sides call by call and counts the replies.

use crate::guarded::GUARDED;
use crate::random::Random;
use crate::raw::RAW;
use crate::sides::{Side, PLAIN, SAFE};
use quadrensolo::sys::Reply;
use std::io::Write;

pub struct Tally {
    call: &'static str,
    /// Of each number; accepted ones at 0.
    replies: [usize; 19],
    /// Accepted ones with variables left out.
    pub assumed: usize,
    /// Of the inputs now tried.
    pub seed: u64,
}

impl Tally {
    pub fn new(call: &'static str) -> Self {
        Tally {
            call,
            replies: [0; 19],
            assumed: 0,
            seed: 0,
        }
    }

    /// The reply, after comparing all sides on equal buffers of these lengths, filled at random.
    pub fn compare<const N: usize>(
        &mut self,
        random: &mut Random,
        lengths: [usize; N],
        inputs: &[&[u8]],
        numbers: &[usize],
        reply: impl Fn(&Side, &mut [Vec<u8>; N]) -> Reply,
    ) -> Reply {
        let before = lengths.map(|length| random.bytes(length));
        let mut expected = before.clone();
        let plain = reply(&PLAIN, &mut expected);
        for (name, side) in [
            ("the C interface", RAW),
            ("the wrapper", SAFE),
            ("the tuned implementation", GUARDED),
        ] {
            let mut buffers = before.clone();
            let said = reply(&side, &mut buffers);
            if (said, &buffers) != (plain, &expected) {
                panic!(
                    "{}, seed {}: {name} differs from plain\ninputs {}\nnumbers {numbers:?}\nbuffers before {}\n{said:?} {}\n{plain:?} {}",
                    self.call,
                    self.seed,
                    hex(inputs),
                    hex(&before),
                    hex(&buffers),
                    hex(&expected)
                );
            }
        }
        self.replies[plain.number as usize] += 1;
        self.assumed += (plain.c > 0) as usize;
        plain
    }

    /// Prints the counts, also where the test's output is captured. Acceptance and each number that the call can give must have been met.
    pub fn end(self, numbers: impl IntoIterator<Item = usize>) {
        let total: usize = self.replies.iter().sum();
        let mut line = format!("{}: {total} calls, {} accepted", self.call, self.replies[0]);
        if self.assumed > 0 {
            line += &format!(" ({} with variables left out)", self.assumed);
        }
        for (number, count) in self.replies.iter().enumerate().skip(1) {
            if *count > 0 {
                line += &format!(", {count} of {number}");
            }
        }
        writeln!(std::io::stdout(), "{line}").expect("standard output");
        for number in numbers.into_iter().chain([0]) {
            assert_ne!(
                self.replies[number], 0,
                "{}: {number} was not met",
                self.call
            );
        }
    }
}

fn hex(fields: &[impl AsRef<[u8]>]) -> String {
    let fields = fields.iter().map(|field| plain::calls::hex(field.as_ref()));
    fields.collect::<Vec<_>>().join(" ")
}
