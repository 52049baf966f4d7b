//! The counts of a program and the numbers of its variables (document 01, "Variables", and the clause count).

use crate::program::{Program, MAX_ATOMS, MAX_BODIES, MAX_RULES};
use crate::Refusal;

/// The largest V: 126 atoms, 500 rules, 500 positive body atoms.
pub const MAX_VARIABLES: usize = MAX_ATOMS + 2 * MAX_RULES + 14 * (MAX_ATOMS + MAX_BODIES);

/// Atoms, rules, pairs and bits count from 1.
#[derive(Clone, Copy)]
pub struct Layout {
    /// atoms
    pub n: usize,
    /// rules
    pub m: usize,
    /// pairs: positive body atoms
    pub k: usize,
    /// counter width
    pub w: usize,
    /// body atoms
    bodies: usize,
    /// rules without a positive body atom
    empty: usize,
}

impl Layout {
    pub fn new(program: &Program) -> Self {
        let rules = program.rules();
        Layout {
            n: program.atoms,
            m: rules.len(),
            k: rules.iter().map(|rule| rule.pairs()).sum(),
            w: width(program.atoms),
            bodies: program.bodies(),
            empty: rules.iter().filter(|rule| rule.pairs() == 0).count(),
        }
    }

    /// V
    pub fn variables(&self) -> usize {
        self.n + 2 * self.m + 2 * self.n * self.w + 2 * self.k * self.w
    }

    /// C
    pub fn clauses(&self) -> usize {
        self.groups().iter().sum()
    }

    /// How many clauses each group has.
    pub fn groups(&self) -> [usize; 7] {
        let Layout { n, m, k, w, .. } = *self;
        [
            self.bodies + m,
            m + n,
            n * w,
            n * w * (w + 1),
            k * (12 * w - 6),
            3 * m + k + w * self.empty - self.empty,
            n,
        ]
    }

    /// V and n, or row 8 if the assignment or the levels have fewer bytes.
    pub fn room(&self, assignment: &[u8], levels: &[u8]) -> Result<(usize, usize), Refusal> {
        let (v, n) = (self.variables(), self.n);
        if assignment.len() < v {
            return Err((8, v));
        }
        if levels.len() < n {
            return Err((8, n));
        }
        Ok((v, n))
    }

    pub fn t(&self, r: usize) -> i32 {
        (self.n + r) as i32
    }

    pub fn s(&self, r: usize) -> i32 {
        (self.n + self.m + r) as i32
    }

    /// v(a, i) is `v(a) + i`; u, p and q alike.
    pub fn v(&self, a: u8) -> i32 {
        (self.n + 2 * self.m + (a as usize - 1) * self.w) as i32
    }

    pub fn u(&self, a: u8) -> i32 {
        self.v(a) + (self.n * self.w) as i32
    }

    pub fn p(&self, k: usize) -> i32 {
        (self.n + 2 * self.m + 2 * self.n * self.w + 2 * (k - 1) * self.w) as i32
    }

    pub fn q(&self, k: usize) -> i32 {
        self.p(k) + self.w as i32
    }
}

/// The smallest w with 2^w at least n + 2.
fn width(n: usize) -> usize {
    (usize::BITS - (n + 1).leading_zeros()) as usize
}

#[cfg(test)]
mod tests {
    use super::width;

    #[test]
    fn widths() {
        let largest = [0, 2, 6, 14, 30, 62, 126];
        for n in 0..=126 {
            assert_eq!(width(n), 1 + largest.iter().filter(|&&l| l < n).count());
        }
    }
}
