//! Every call once more, hand-tuned and unsafe, as an opponent in the benchmark: unchecked reads and stores of eight bytes, texts of
//! numbers from a constant table, bit-parallel tests of clauses, a queue for the levels. It shares no code with the proved library or
//! the plain implementation, allocates nothing and clears only what it needs. No processor features beyond those of x86-64 are used.
//!
//! Replies and buffers are those of the plain implementation for every input, accepted or refused: `tests/compare` compares them.

mod answer;
mod check;
mod clauses;
mod fill;
mod items;
mod lines;
mod literals;
mod numerals;
mod refused;
mod text;
mod truth;

use std::arch::x86_64::{_mm_cmpeq_epi8, _mm_loadu_si128, _mm_movemask_epi8, _mm_set1_epi8};

pub use check::check;
pub use fill::fill_out;
pub use lines::{line, run};
pub use text::read;

/// Row number and spot.
pub type Refusal = (u32, usize);

const MAX_ATOMS: usize = 126;
const MAX_RULES: usize = 500;
const MAX_BODIES: usize = 500;
/// 126 atoms, 500 rules, 500 pairs, 7 bits.
const MAX_VARIABLES: usize = 9_890;

/// The counts of a program, and from them the variables' numbers. Rules and pairs count from 0 here, atoms and bits from 1.
#[derive(Clone, Copy)]
struct Sizes {
    /// Atoms.
    n: usize,
    /// Rules.
    m: usize,
    /// Pairs: positive body atoms.
    k: usize,
    /// Negated body atoms.
    negated: usize,
    /// Rules without a positive body atom.
    empty: usize,
    /// Bits of a counter.
    w: usize,
}

impl Sizes {
    #[inline(always)]
    fn variables(&self) -> usize {
        self.first_pair() + 2 * self.k * self.w
    }

    /// How many clauses each group has.
    #[inline(always)]
    fn groups(&self) -> [usize; 7] {
        let Sizes { n, m, k, w, .. } = *self;
        [
            k + self.negated + m,
            m + n,
            n * w,
            n * w * (w + 1),
            k * (12 * w - 6),
            3 * m + k + (w - 1) * self.empty,
            n,
        ]
    }

    #[inline(always)]
    fn clauses(&self) -> usize {
        self.groups().iter().sum()
    }

    #[inline(always)]
    fn t(&self, rule: usize) -> usize {
        self.n + rule + 1
    }

    #[inline(always)]
    fn s(&self, rule: usize) -> usize {
        self.n + self.m + rule + 1
    }

    /// v(a, i) is `v(a) + i`; u, p and q alike.
    #[inline(always)]
    fn v(&self, atom: usize) -> usize {
        self.n + 2 * self.m + (atom - 1) * self.w
    }

    #[inline(always)]
    fn u(&self, atom: usize) -> usize {
        self.v(atom) + self.n * self.w
    }

    #[inline(always)]
    fn p(&self, pair: usize) -> usize {
        self.first_pair() + 2 * pair * self.w
    }

    #[inline(always)]
    fn q(&self, pair: usize) -> usize {
        self.p(pair) + self.w
    }

    /// How many variables come before those of the pairs.
    #[inline(always)]
    fn first_pair(&self) -> usize {
        self.n + 2 * self.m + 2 * self.n * self.w
    }

    /// V, or row 8 if the assignment or the levels are too short.
    #[inline(always)]
    fn room(&self, assignment: &[u8], levels: &[u8]) -> Result<usize, Refusal> {
        let variables = self.variables();
        if assignment.len() < variables {
            return Err((8, variables));
        }
        if levels.len() < self.n {
            return Err((8, self.n));
        }
        Ok(variables)
    }
}

/// SAFETY: eight bytes can be read from there.
#[inline(always)]
unsafe fn load(from: *const u8) -> u64 {
    u64::from_le(from.cast::<u64>().read_unaligned())
}

/// SAFETY: eight bytes can be written from there on.
#[inline(always)]
unsafe fn store(to: *mut u8, word: u64) {
    to.cast::<u64>().write_unaligned(word.to_le());
}

/// Bytes that are looked at together.
const BLOCK: usize = 64;

/// Which bytes of a block are this one: a bit for each, lowest first.
/// SAFETY: so many bytes can be read from there.
#[inline(always)]
unsafe fn mask(block: *const u8, byte: u8) -> u64 {
    let byte = _mm_set1_epi8(byte as i8);
    let part = |i: usize| {
        let bytes = _mm_loadu_si128(block.add(16 * i).cast());
        _mm_movemask_epi8(_mm_cmpeq_epi8(bytes, byte)) as u64
    };
    part(0) | part(1) << 16 | part(2) << 32 | part(3) << 48
}
