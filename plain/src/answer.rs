//! Reading a solver answer (document 01, "Solver answer", rows 10 to 12 of "Verdicts").

use crate::cursor::Cursor;
use crate::Refusal;

pub const MAX_ANSWER: usize = 65_536;

const STATUSES: [&[u8]; 3] = [b"s SATISFIABLE\n", b"s UNSATISFIABLE\n", b"s UNKNOWN\n"];

/// A literal of an answer: its variable (cut where no program has so many), its sign, and its first byte.
pub struct Literal {
    pub variable: usize,
    pub positive: bool,
    pub spot: usize,
}

/// Hands out each literal before literal 0, whether or not a refusal comes after it.
pub fn read_answer(answer: &[u8], take: impl FnMut(Literal)) -> Result<(), Refusal> {
    if answer.len() > MAX_ANSWER {
        return Err((10, answer.len()));
    }
    let mut reader = Reader {
        cursor: Cursor::new(answer),
        take,
    };
    match reader.form() {
        None => Err((11, reader.cursor.at())),
        Some(Offer::NoModel) => Err((12, 0)),
        Some(Offer::Model) => Ok(()),
    }
}

enum Offer {
    Model,
    NoModel,
}

struct Reader<'a, F> {
    cursor: Cursor<'a>,
    take: F,
}

impl<F: FnMut(Literal)> Reader<'_, F> {
    fn form(&mut self) -> Option<Offer> {
        self.comments()?;
        if let Offer::NoModel = self.status()? {
            return Some(Offer::NoModel);
        }
        loop {
            self.comments()?;
            self.cursor.expect(b"v")?;
            if self.values()? {
                break;
            }
        }
        self.comments()?;
        // Nothing else may follow.
        self.cursor.ended().then_some(Offer::Model)
    }

    /// Lines that start with c.
    fn comments(&mut self) -> Option<()> {
        while self.cursor.peek() == Some(b'c') {
            self.cursor.line()?;
        }
        Some(())
    }

    fn status(&mut self) -> Option<Offer> {
        let same = STATUSES.map(|status| self.cursor.common(status));
        let found = (0..3).find(|&i| same[i] == STATUSES[i].len());
        self.cursor.skip(same.into_iter().max().unwrap_or(0));
        match found? {
            0 => Some(Offer::Model),
            _ => Some(Offer::NoModel),
        }
    }

    /// A v line after its v; whether literal 0 is in it.
    fn values(&mut self) -> Option<bool> {
        while self.cursor.take(b' ') {
            if self.cursor.take(b'0') {
                self.cursor.expect(b"\n")?;
                return Some(true);
            }
            let spot = self.cursor.at();
            let positive = !self.cursor.take(b'-');
            if self.cursor.peek() == Some(b'0') {
                return None;
            }
            let variable = self.cursor.number()? as usize;
            (self.take)(Literal {
                variable,
                positive,
                spot,
            });
        }
        self.cursor.expect(b"\n")?;
        Some(false)
    }
}
