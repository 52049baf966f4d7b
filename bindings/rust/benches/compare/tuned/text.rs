//! Program texts. Whole lines are read quickly as long as nothing is wrong. A line with something wrong is read again with care, and
//! from then on lines are only looked at for their form.

use super::refused::Careful;
use super::{Refusal, Sizes, MAX_ATOMS, MAX_BODIES, MAX_RULES};
use std::mem::MaybeUninit;

const MAX_BYTES: usize = 65_536;
/// "(rule " in a word.
const RULE: u64 = u64::from_le_bytes(*b"(rule \0\0");
/// "(atoms " in a word.
const ATOMS: u64 = u64::from_le_bytes(*b"(atoms \0");
/// The end of a rule line without negated atoms.
const NONE_NEGATED: u64 = u64::from_le_bytes(*b" ())\n\0\0\0");
/// The shortest rule line.
const SHORTEST: usize = b"(rule 1 () ())\n".len();

type Array<T, const N: usize> = [MaybeUninit<T>; N];

/// An accepted program. Only what its counts cover is set: `m` heads, `m + 1` starts of each kind, `k` pairs, `negated` atoms.
pub struct Program {
    heads: Array<u8, MAX_RULES>,
    pair_starts: Array<u16, { MAX_RULES + 1 }>,
    negated_starts: Array<u16, { MAX_RULES + 1 }>,
    partners: Array<u8, MAX_BODIES>,
    owners: Array<u8, MAX_BODIES>,
    negated: Array<u8, MAX_BODIES>,
}

impl Program {
    pub const UNSET: Program = Program {
        heads: [MaybeUninit::uninit(); MAX_RULES],
        pair_starts: [MaybeUninit::uninit(); MAX_RULES + 1],
        negated_starts: [MaybeUninit::uninit(); MAX_RULES + 1],
        partners: [MaybeUninit::uninit(); MAX_BODIES],
        owners: [MaybeUninit::uninit(); MAX_BODIES],
        negated: [MaybeUninit::uninit(); MAX_BODIES],
    };

    /// SAFETY of this and the next: the rule, the pair or the place is one of the program that was read.
    #[inline(always)]
    pub unsafe fn head(&self, rule: usize) -> usize {
        self.heads.get_unchecked(rule).assume_init() as usize
    }

    /// The heads from a rule on.
    #[inline(always)]
    pub unsafe fn heads(&self, rule: usize) -> *const u8 {
        self.heads.as_ptr().add(rule).cast()
    }

    /// First pair of a rule; of rule m, K.
    #[inline(always)]
    pub unsafe fn pair_start(&self, rule: usize) -> usize {
        self.pair_starts.get_unchecked(rule).assume_init() as usize
    }

    #[inline(always)]
    pub unsafe fn negated_start(&self, rule: usize) -> usize {
        self.negated_starts.get_unchecked(rule).assume_init() as usize
    }

    /// The body atom of a pair.
    #[inline(always)]
    pub unsafe fn partner(&self, pair: usize) -> usize {
        self.partners.get_unchecked(pair).assume_init() as usize
    }

    /// The head of a pair.
    #[inline(always)]
    pub unsafe fn owner(&self, pair: usize) -> usize {
        self.owners.get_unchecked(pair).assume_init() as usize
    }

    #[inline(always)]
    pub unsafe fn negated(&self, place: usize) -> usize {
        self.negated.get_unchecked(place).assume_init() as usize
    }
}

/// V and C.
pub fn read(text: &[u8]) -> Result<(usize, usize), Refusal> {
    let mut program = Program::UNSET;
    let sizes = read_lines::<false>(text, &mut program)?;
    Ok((sizes.variables(), sizes.clauses()))
}

/// Reads an accepted text into the program.
#[inline]
pub fn read_program(text: &[u8], program: &mut Program) -> Result<Sizes, Refusal> {
    read_lines::<true>(text, program)
}

#[inline(always)]
fn read_lines<const KEEP: bool>(text: &[u8], program: &mut Program) -> Result<Sizes, Refusal> {
    // The last byte ends every walk over digits, since the bytes before it are within the text.
    let ends = text.last() == Some(&b'\n') && text.len() <= MAX_BYTES;
    let Some((n, start)) = atoms_line(text).filter(|_| ends) else {
        return Err(match text.len() {
            0..=MAX_BYTES => Careful::new(text).refusal(),
            length => (1, length),
        });
    };
    let mut sizes = Sizes {
        n,
        m: 0,
        k: 0,
        negated: 0,
        empty: 0,
        // the smallest w with 2^w at least n + 2
        w: (usize::BITS - (n + 1).leading_zeros()) as usize,
    };
    let mut at = start;
    while at < text.len() {
        // SAFETY: the text ends with byte 10, and a line starts within it.
        let end = unsafe { rule_line::<KEEP>(text, at, &mut sizes, program) };
        match end {
            0 => {
                let bodies = sizes.k + sizes.negated;
                return Err(Careful::in_line(text, at, n, sizes.m, bodies).refusal());
            }
            end => at = end,
        }
    }
    if KEEP {
        // SAFETY: there are at most MAX_RULES rules.
        unsafe { set_starts(program, &sizes) };
    }
    Ok(sizes)
}

unsafe fn set_starts(program: &mut Program, sizes: &Sizes) {
    let Sizes { m, k, negated, .. } = *sizes;
    program.pair_starts.get_unchecked_mut(m).write(k as u16);
    program
        .negated_starts
        .get_unchecked_mut(m)
        .write(negated as u16);
}

/// N and where the line ends, of an atoms line with N at most 126.
#[inline(always)]
fn atoms_line(text: &[u8]) -> Option<(usize, usize)> {
    let front = text.first_chunk::<10>()?;
    let word = u64::from_le_bytes(*front.first_chunk()?);
    if word & 0xff_ffff_ffff_ffff != ATOMS {
        return None;
    }
    let mut n = digit(front[7])?;
    let mut at = 8;
    while let Some(next) = digit(*text.get(at)?) {
        n = 10 * n + next;
        at += 1;
        if !(10..=MAX_ATOMS).contains(&n) {
            return None;
        }
    }
    (text.get(at..at + 2)? == b")\n").then_some((n, at + 2))
}

#[inline(always)]
fn digit(byte: u8) -> Option<usize> {
    let digit = byte.wrapping_sub(b'0');
    (digit < 10).then_some(digit as usize)
}

/// Where the rule line at `at` ends; 0 if something is wrong with it, or there is no room for it.
/// SAFETY: `at` is within the text, whose last byte is byte 10.
#[inline(always)]
unsafe fn rule_line<const KEEP: bool>(
    text: &[u8],
    at: usize,
    sizes: &mut Sizes,
    program: &mut Program,
) -> usize {
    let from = text.as_ptr().add(at);
    if text.len() - at < SHORTEST || super::load(from) & 0xffff_ffff_ffff != RULE {
        return 0;
    }
    let (n, m, k, negated) = (sizes.n, sizes.m, sizes.k, sizes.negated);
    let (head, from) = number(from.add(6));
    if head.wrapping_sub(1) >= n || m == MAX_RULES || from.cast::<[u8; 2]>().read() != *b" (" {
        return 0;
    }
    let left = MAX_BODIES - k - negated;
    let pairs = list(from.add(2), n, left, |i, atom| {
        if KEEP {
            program.partners.get_unchecked_mut(k + i).write(atom);
            program.owners.get_unchecked_mut(k + i).write(head as u8);
        }
    });
    let Some((count, from)) = pairs else {
        return 0;
    };
    let end = text.as_ptr().add(text.len());
    let (negated_count, from) =
        if end.offset_from(from) >= 8 && super::load(from) & 0xff_ffff_ffff == NONE_NEGATED {
            (0, from.add(5))
        } else {
            if *from != b' ' || *from.add(1) != b'(' {
                return 0;
            }
            let rest = list(from.add(2), n, left - count, |i, atom| {
                if KEEP {
                    program.negated.get_unchecked_mut(negated + i).write(atom);
                }
            });
            let Some((count, from)) = rest else {
                return 0;
            };
            if *from != b')' || *from.add(1) != b'\n' {
                return 0;
            }
            (count, from.add(2))
        };
    if KEEP {
        program.heads.get_unchecked_mut(m).write(head as u8);
        program.pair_starts.get_unchecked_mut(m).write(k as u16);
        let start = program.negated_starts.get_unchecked_mut(m);
        start.write(negated as u16);
    }
    sizes.m = m + 1;
    sizes.k = k + count;
    sizes.negated = negated + negated_count;
    sizes.empty += (count == 0) as usize;
    from.offset_from(text.as_ptr()) as usize
}

/// How many ascending atoms up to n a list has after its opening bracket, and where its closing one ends. None if it is no such list or
/// has more than `left`.
/// SAFETY: a byte 10 comes at or after `from`.
#[inline(always)]
unsafe fn list(
    mut from: *const u8,
    n: usize,
    left: usize,
    mut keep: impl FnMut(usize, u8),
) -> Option<(usize, *const u8)> {
    if *from == b')' {
        return Some((0, from.add(1)));
    }
    let (mut count, mut before) = (0, 0);
    loop {
        let (atom, after) = number(from);
        // above the one before, and at most n
        if atom.wrapping_sub(before + 1) >= n - before || count == left {
            return None;
        }
        keep(count, atom as u8);
        (count, before) = (count + 1, atom);
        match *after {
            b' ' => from = after.add(1),
            b')' => return Some((count, after.add(1))),
            _ => return None,
        }
    }
}

/// A number of up to three digits and where it ends; 0 where there is none.
/// SAFETY: a byte 10 comes at or after `from`.
#[inline(always)]
unsafe fn number(from: *const u8) -> (usize, *const u8) {
    let digit = |i| (*from.add(i)).wrapping_sub(b'0');
    let first = digit(0);
    if first.wrapping_sub(1) > 8 {
        return (0, from);
    }
    let second = digit(1);
    if second > 9 {
        return (first as usize, from.add(1));
    }
    let value = 10 * first as usize + second as usize;
    let third = digit(2);
    if third > 9 {
        return (value, from.add(2));
    }
    // A fourth digit is none of the bytes that may follow.
    (10 * value + third as usize, from.add(3))
}
