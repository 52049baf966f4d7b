//! Literals as text, eight bytes at a time.

use super::{store, MAX_VARIABLES};

/// "0" and byte 10, which end a line.
const END: u64 = u16::from_le_bytes(*b"0\n") as u64;

/// A number's digits and a space, first byte lowest; how many bytes they are, in the highest byte.
#[derive(Clone, Copy)]
pub struct Numeral(u64);

static NUMERALS: [Numeral; MAX_VARIABLES + 1] = {
    let mut numerals = [Numeral(0); MAX_VARIABLES + 1];
    let mut number = 0;
    while number <= MAX_VARIABLES {
        let (mut word, mut size) = (b' ' as u64, 1);
        let mut rest = number;
        while size == 1 || rest > 0 {
            word = word << 8 | (b'0' as usize + rest % 10) as u64;
            size += 1;
            rest /= 10;
        }
        numerals[number] = Numeral(word | size << 56);
        number += 1;
    }
    numerals
};

/// SAFETY: no program has a variable above.
#[inline(always)]
pub unsafe fn numeral(variable: usize) -> Numeral {
    *NUMERALS.get_unchecked(variable)
}

impl Numeral {
    /// How many bytes it has with its space.
    #[inline(always)]
    pub fn size(self) -> usize {
        (self.0 >> 56) as usize
    }

    /// The positive literal.
    #[inline(always)]
    pub fn yes(self) -> u64 {
        self.0
    }

    /// The negative literal, a byte longer.
    #[inline(always)]
    pub fn no(self) -> u64 {
        self.0 << 8 | b'-' as u64
    }

    /// The positive literal as the last one of a line.
    #[inline(always)]
    pub fn yes_end(self) -> u64 {
        self.yes() | END << (8 * self.size())
    }

    /// The negative literal as the last one of a line.
    #[inline(always)]
    pub fn no_end(self) -> u64 {
        self.no() | END << (8 * self.size() + 8)
    }
}

/// Where lines are written. Up to four bytes behind the last line are overwritten, up to seven behind a literal.
#[derive(Clone, Copy)]
pub struct Pen(pub *mut u8);

/// SAFETY of each: eight bytes from here on can be written, more after each literal.
impl Pen {
    #[inline(always)]
    pub unsafe fn yes(&mut self, x: Numeral) {
        store(self.0, x.yes());
        self.0 = self.0.add(x.size());
    }

    #[inline(always)]
    pub unsafe fn no(&mut self, x: Numeral) {
        store(self.0, x.no());
        self.0 = self.0.add(x.size() + 1);
    }

    #[inline(always)]
    pub unsafe fn yes_end(&mut self, x: Numeral) {
        store(self.0, x.yes_end());
        self.0 = self.0.add(x.size() + 2);
    }

    #[inline(always)]
    pub unsafe fn no_end(&mut self, x: Numeral) {
        store(self.0, x.no_end());
        self.0 = self.0.add(x.size() + 3);
    }

    #[inline(always)]
    pub unsafe fn end(&mut self) {
        self.0.cast::<[u8; 2]>().write(*b"0\n");
        self.0 = self.0.add(2);
    }
}
