//! The first clause without a true literal. All clauses of an item are tested at once: a byte of a word is a bit of a counter.

use super::clauses::{before, clauses_of, literals, Place};
use super::text::Program;
use super::{load, Sizes, MAX_ATOMS};

/// A bit in each byte.
const ONES: u64 = 0x0101_0101_0101_0101;

/// Values by their variables' numbers, 0 or 1.
#[derive(Clone, Copy)]
struct Values(*const u8);

impl Values {
    #[inline(always)]
    unsafe fn of(self, variable: usize) -> u8 {
        *self.0.add(variable - 1)
    }

    /// Of the eight variables behind this one.
    #[inline(always)]
    unsafe fn behind(self, variable: usize) -> u64 {
        load(self.0.add(variable))
    }
}

/// The number of the first false clause.
/// SAFETY: the program was read with these sizes; V values and eight bytes more can be read.
#[inline(always)]
pub unsafe fn first_false(program: &Program, sizes: &Sizes, values: *const u8) -> Option<usize> {
    let values = Values(values);
    let (group, item) = false_item(program, sizes, values)?;
    Some(false_clause(program, sizes, values, group, item))
}

/// The first item with a false clause, and its group.
#[inline(always)]
unsafe fn false_item(program: &Program, sizes: &Sizes, values: Values) -> Option<(usize, usize)> {
    let Sizes { n, m, w, .. } = *sizes;
    // Whether a body of the atom's rules is true, and whether one founds it.
    let mut supported = [0u8; MAX_ATOMS + 1];
    let mut founded = [0u8; MAX_ATOMS + 1];
    for rule in 0..m {
        let t = values.of(sizes.t(rule));
        let head = program.head(rule);
        *supported.get_unchecked_mut(head) |= t;
        *founded.get_unchecked_mut(head) |= values.of(sizes.s(rule));
        let mut body = 1;
        for pair in program.pair_start(rule)..program.pair_start(rule + 1) {
            body &= values.of(program.partner(pair));
        }
        for place in program.negated_start(rule)..program.negated_start(rule + 1) {
            body &= values.of(program.negated(place)) ^ 1;
        }
        if body != t {
            return Some((0, rule));
        }
    }
    for atom in 1..=n {
        if values.of(atom) != *supported.get_unchecked(atom) {
            return Some((1, atom - 1));
        }
    }
    let bits = ONES & ((1 << (8 * w)) - 1);
    for atom in 1..=n {
        // All bits where the atom is false.
        let none = (values.of(atom) as u64).wrapping_sub(1);
        if values.behind(sizes.v(atom)) & bits & none != 0 {
            return Some((2, atom - 1));
        }
    }
    for atom in 1..=n {
        let (v, u) = (values.behind(sizes.v(atom)), values.behind(sizes.u(atom)));
        // A byte with a 1 passes the carry on.
        let next = ((v & bits) | !ONES).wrapping_add(1);
        if (u ^ next) & bits != 0 {
            return Some((3, atom - 1));
        }
    }
    let mut z = sizes.first_pair();
    for pair in 0..sizes.k {
        let atom = program.partner(pair);
        let y = values.behind(sizes.v(program.owner(pair)));
        let (v, u) = (sizes.v(atom), sizes.u(atom));
        let wrong = |z: u64, x: u64| {
            // Each bit is what two of three say: no x, y, the bit before.
            let (x, below) = (!x, z << 8);
            z ^ (x & y | x & below | y & below)
        };
        let p = wrong(values.behind(z), values.behind(v));
        let q = wrong(values.behind(z + w), values.behind(u));
        if (p | q) & bits != 0 {
            return Some((4, pair));
        }
        z += 2 * w;
    }
    for rule in 0..m {
        let (t, s) = (values.of(sizes.t(rule)), values.of(sizes.s(rule)));
        let pairs = program.pair_start(rule)..program.pair_start(rule + 1);
        let fails = if pairs.is_empty() {
            let v = values.behind(sizes.v(program.head(rule))) & bits;
            s != t || t == 1 && v != 1
        } else {
            let (mut below, mut next_below) = (1, 1);
            for pair in pairs {
                below &= values.of(sizes.p(pair) + w);
                next_below &= values.of(sizes.q(pair) + w);
            }
            (s ^ t & below) | t & next_below != 0
        };
        if fails {
            return Some((5, rule));
        }
    }
    for atom in 1..=n {
        if values.of(atom) > *founded.get_unchecked(atom) {
            return Some((6, atom - 1));
        }
    }
    None
}

/// The first false clause of an item that has one.
#[cold]
unsafe fn false_clause(
    program: &Program,
    sizes: &Sizes,
    values: Values,
    group: usize,
    item: usize,
) -> usize {
    let clauses = clauses_of(program, sizes, group, item);
    let holds = |number: usize| {
        let place = Place {
            group,
            item,
            number,
        };
        let mut holds = false;
        literals(program, sizes, place, |variable, positive| {
            holds |= (values.of(variable) == 1) == positive;
        });
        holds
    };
    let number = (0..clauses).find(|&number| !holds(number));
    before(program, sizes, group, item) + number.expect("a false clause") + 1
}
