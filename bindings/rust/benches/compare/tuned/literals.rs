//! Literals of answers, quickly: compared with the texts of the variables that come next, found in blocks of 64 bytes, or one by one; and
//! the ends of comments.

use super::answer::{Reader, MISSING};
use super::numerals::numeral;
use super::{load, mask, BLOCK};

/// The largest number whose numeral has so many bytes.
const LARGEST: [usize; 6] = [0, 0, 9, 99, 999, 9_999];

/// A line end and the start of a v line.
const BREAK: u32 = u32::from_le_bytes(*b"\nv \0");

impl Reader<'_> {
    /// Literals with a space before each, as long as they are short, of the program, and new. Line ends that a v line follows at once are
    /// passed too.
    #[inline(always)]
    pub fn quick(&mut self) {
        if self.in_order {
            // SAFETY: the values are those of a program's variables.
            unsafe { self.next_in_order() };
        }
        // SAFETY: the length is looked at, and literals come after the status line.
        while self.at + BLOCK <= self.answer.len() && unsafe { self.block() } {}
        self.short_literals();
    }

    /// Literals of the variables that come next, each compared with its text. None of them has a value so far.
    /// SAFETY: a variable of the program has a numeral.
    #[inline(always)]
    unsafe fn next_in_order(&mut self) {
        let answer = self.answer.as_ptr();
        let (mut at, mut given) = (self.at, self.given);
        // At a space, sixteen bytes hold a literal, a line end and the start of a line.
        let end = self.answer.len().saturating_sub(15);
        if at >= end || *answer.add(at) != b' ' {
            return;
        }
        while given < self.values.len() {
            let size = numeral(given + 1).size();
            let digits = (1 << (8 * size - 8)) - 1;
            let space = 0xff << (8 * size - 8);
            let most = self.values.len().min(LARGEST[size]);
            let mut differs = 0;
            while given < most && at < end {
                let word = load(answer.add(at + 1));
                let minus = (word as u8 == b'-') as usize;
                differs = ((word >> (8 * minus)) ^ numeral(given + 1).yes()) & (digits | space);
                if differs & digits != 0 {
                    break;
                }
                let stop = at + minus + size;
                if differs != 0 {
                    // another byte than a space
                    let after = load(answer.add(stop)) as u32 & 0xff_ffff;
                    if after as u8 != b'\n' {
                        break;
                    }
                    differs = (after != BREAK) as u64;
                    at = stop + if after == BREAK { 2 } else { 0 };
                } else {
                    at = stop;
                }
                *self.values.get_unchecked_mut(given) = 1 - minus as u8;
                given += 1;
                if differs != 0 {
                    break;
                }
            }
            if differs != 0 || at >= end {
                break;
            }
        }
        (self.at, self.given) = (at, given);
    }

    /// The literals that end in a block of bytes, which starts with the byte before the first one; whether all of them were taken.
    /// SAFETY: the answer has so many bytes from here on, and a status line before.
    #[inline(always)]
    unsafe fn block(&mut self) -> bool {
        let block = self.answer.as_ptr().add(self.at);
        let (spaces, ends, vs) = (mask(block, b' '), mask(block, b'\n'), mask(block, b'v'));
        // A line end with "v " behind it; of the last two it is not known.
        let breaks = ends & vs >> 1 & spaces >> 2;
        if (spaces | breaks) & 1 == 0 {
            return false;
        }
        let known = (1 << (BLOCK - 3)) - 1;
        let last = ends & !breaks & !1 & known;
        // Each literal starts behind a space and ends before a space or a line end.
        let mut starts = spaces << 1;
        let mut stops =
            (spaces & !(breaks << 2) | ends) & !1 & known & (last ^ last.wrapping_sub(1));
        let whole = last == 0 && stops != 0;
        let mut at = 0;
        while stops != 0 {
            let (start, stop) = (starts.trailing_zeros(), stops.trailing_zeros());
            starts &= starts - 1;
            stops &= stops - 1;
            let new = |&(variable, _): &(usize, u8)| {
                let value = self.values.get(variable - 1);
                value == Some(&MISSING)
            };
            let Some((variable, minus)) = short_literal(block, start, stop).filter(new) else {
                self.at += start as usize - 1;
                return false;
            };
            *self.values.get_unchecked_mut(variable - 1) = 1 - minus;
            self.given += 1;
            self.in_order = false;
            at = stop as usize;
        }
        self.at += at;
        whole
    }

    /// The same where few bytes are left.
    #[inline(always)]
    fn short_literals(&mut self) {
        let (answer, count) = (self.answer.as_ptr(), self.values.len());
        let mut at = self.at;
        // SAFETY: eight bytes are read where there are so many, and the variable is one of the values.
        unsafe {
            while at + 8 <= self.answer.len() {
                let word = load(answer.add(at));
                let minus = ((word >> 8) as u8 == b'-') as usize;
                let (variable, length) = number(word >> (8 + 8 * minus));
                if word as u8 != b' ' || variable.wrapping_sub(1) >= count {
                    break;
                }
                let value = self.values.get_unchecked_mut(variable - 1);
                if *value != MISSING {
                    break;
                }
                *value = 1 - minus as u8;
                self.given += 1;
                self.in_order = false;
                at += 1 + minus + length;
            }
        }
        self.at = at;
    }

    /// Where the next byte 10 is.
    #[inline(always)]
    pub fn line_end(&self) -> Option<usize> {
        let mut at = self.at;
        while at + BLOCK <= self.answer.len() {
            // SAFETY: there are so many bytes.
            let ends = unsafe { mask(self.answer.as_ptr().add(at), b'\n') };
            if ends != 0 {
                return Some(at + ends.trailing_zeros() as usize);
            }
            at += BLOCK;
        }
        let length = self.answer[at..].iter().position(|&byte| byte == b'\n');
        length.map(|length| at + length)
    }
}

/// The variable of the literal in these bytes of a block, and 1 if it is negative. None if it is 0, has more than four digits or is no
/// literal. SAFETY: eight bytes can be read before the stop.
#[inline(always)]
unsafe fn short_literal(block: *const u8, start: u32, stop: u32) -> Option<(usize, u8)> {
    let minus = (*block.add(start as usize) == b'-') as u32;
    let count = stop.wrapping_sub(start).wrapping_sub(minus);
    if count.wrapping_sub(1) > 3 {
        return None;
    }
    // The four bytes before the stop, as digits; those before the first are zeros.
    let from = 32 - 8 * count;
    let bytes = (load(block.add(stop as usize).sub(8)) >> 32) as u32;
    let digits = (bytes ^ 0x3030_3030) >> from << from;
    let other = (digits.wrapping_add(0x7676_7676) | digits) & 0x8080_8080;
    if other != 0 || (digits >> from) as u8 == 0 {
        return None;
    }
    let pairs = (digits & 0x00ff_00ff) * 10 + (digits >> 8 & 0x00ff_00ff);
    let variable = pairs.wrapping_mul(100 << 16 | 1) >> 16;
    Some((variable as usize, minus as u8))
}

/// A number of up to four digits, lowest byte first, and how many; 0 if it is no such number.
#[inline(always)]
fn number(word: u64) -> (usize, usize) {
    let digit = |i: u32| ((word >> (8 * i)) as u8).wrapping_sub(b'0');
    let first = digit(0);
    if first.wrapping_sub(1) > 8 {
        return (0, 0);
    }
    let mut value = first as usize;
    if digit(1) > 9 {
        return (value, 1);
    }
    value = 10 * value + digit(1) as usize;
    if digit(2) > 9 {
        return (value, 2);
    }
    value = 10 * value + digit(2) as usize;
    if digit(3) > 9 {
        return (value, 3);
    }
    if digit(4) <= 9 {
        return (0, 0);
    }
    (10 * value + digit(3) as usize, 4)
}
