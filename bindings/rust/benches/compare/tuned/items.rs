//! Whole items of clauses, written with stores of eight bytes.

use super::clauses::Place;
use super::numerals::{numeral, Numeral, Pen};
use super::text::Program;
use super::{store, Sizes, MAX_ATOMS, MAX_RULES};
use std::mem::MaybeUninit;

/// The rules of each head in text order. They count from 1 here, and 0 ends them.
pub struct Links {
    first: [u16; MAX_ATOMS + 1],
    next: [MaybeUninit<u16>; MAX_RULES + 1],
}

impl Links {
    #[inline(always)]
    pub fn none() -> Self {
        Links {
            first: [0; MAX_ATOMS + 1],
            next: [MaybeUninit::uninit(); MAX_RULES + 1],
        }
    }

    /// SAFETY: the program was read with these sizes.
    #[inline(always)]
    pub unsafe fn set(&mut self, program: &Program, sizes: &Sizes) {
        for rule in (0..sizes.m).rev() {
            let first = self.first.get_unchecked_mut(program.head(rule));
            self.next.get_unchecked_mut(rule + 1).write(*first);
            *first = rule as u16 + 1;
        }
    }
}

/// A program with its links.
pub struct Items<'a> {
    pub program: &'a Program,
    pub sizes: Sizes,
    pub links: &'a Links,
}

impl Items<'_> {
    /// No item of the group has more bytes.
    #[inline(always)]
    pub fn bound(&self, group: usize) -> usize {
        let Sizes {
            m, k, negated, w, ..
        } = self.sizes;
        // No literal has more than 6 bytes with its space.
        match group {
            0 => 20 * (k + negated) + 8,
            1 => 20 * m + 8,
            2 => 14 * w,
            3 => 26 * w * w + 14 * w,
            4 => 20 * (12 * w - 6),
            5 => 26 * k + 14 * w + 64,
            _ => 6 * m + 8,
        }
    }

    /// No line of the program has more bytes.
    pub fn longest(&self) -> usize {
        6 * self.sizes.m.max(self.sizes.k + self.sizes.negated) + 64
    }

    /// The items of a group from `item` on, as long as they end at most at `limit` less the group's bound: the first one that is not
    /// written, and the end of those before it.
    /// SAFETY of this and the next ones: the item is one of the group's; an item's bound and eight bytes more can be written at the pen.
    #[inline(always)]
    pub unsafe fn group(&self, place: &mut Place, count: usize, pen: &mut Pen, limit: *mut u8) {
        let full = self.sizes.n + 2 * self.sizes.m >= 999;
        macro_rules! all {
            ($put:expr) => {
                while place.item < count && pen.0 <= limit {
                    let start = pen.0;
                    *pen = $put(self, place.item, *pen);
                    debug_assert!(pen.0 <= start.add(self.bound(place.group)));
                    place.item += 1;
                }
            };
        }
        match place.group {
            0 => all!(Self::body),
            1 => all!(Self::completion),
            2 => all!(Self::false_level),
            3 => all!(Self::successor),
            // All numbers from here on have four digits.
            4 if full => all!(Self::comparisons::<true>),
            4 => all!(Self::comparisons::<false>),
            5 => all!(Self::founding),
            _ => all!(Self::founded),
        }
    }

    /// Group 1: t(r) is the body of rule r.
    #[inline(always)]
    unsafe fn body(&self, rule: usize, mut pen: Pen) -> Pen {
        let program = self.program;
        let t = numeral(self.sizes.t(rule));
        let pairs = program.pair_start(rule)..program.pair_start(rule + 1);
        let negated = program.negated_start(rule)..program.negated_start(rule + 1);
        for pair in pairs.clone() {
            pen.no(t);
            pen.yes_end(numeral(program.partner(pair)));
        }
        for place in negated.clone() {
            pen.no(t);
            pen.no_end(numeral(program.negated(place)));
        }
        pen.yes(t);
        for pair in pairs {
            pen.no(numeral(program.partner(pair)));
        }
        for place in negated {
            pen.yes(numeral(program.negated(place)));
        }
        pen.end();
        pen
    }

    #[inline(always)]
    unsafe fn rules(&self, atom: usize, mut each: impl FnMut(usize)) {
        let mut link = *self.links.first.get_unchecked(atom) as usize;
        while link > 0 {
            each(link - 1);
            link = self.links.next.get_unchecked(link).assume_init() as usize;
        }
    }

    /// Group 2: an atom is true exactly if a body of its rules is.
    #[inline(always)]
    unsafe fn completion(&self, item: usize, mut pen: Pen) -> Pen {
        let a = numeral(item + 1);
        let t = |rule| numeral(self.sizes.t(rule));
        self.rules(item + 1, |rule| {
            pen.yes(a);
            pen.no_end(t(rule));
        });
        pen.no(a);
        self.rules(item + 1, |rule| pen.yes(t(rule)));
        pen.end();
        pen
    }

    /// Group 3: a false atom has counter 0.
    #[inline(always)]
    unsafe fn false_level(&self, item: usize, mut pen: Pen) -> Pen {
        let (a, v) = (numeral(item + 1), self.sizes.v(item + 1));
        for bit in 1..=self.sizes.w {
            pen.yes(a);
            pen.no_end(numeral(v + bit));
        }
        pen
    }

    /// Group 4: u is v plus 1.
    #[inline(always)]
    unsafe fn successor(&self, item: usize, mut pen: Pen) -> Pen {
        let (v, u) = (self.sizes.v(item + 1), self.sizes.u(item + 1));
        for bit in 1..=self.sizes.w {
            let (ui, vi) = (numeral(u + bit), numeral(v + bit));
            let (a, b) = (ui.size(), vi.size());
            for lower in 1..bit {
                let x = numeral(v + lower);
                let (c, at) = (x.size(), pen.0);
                // v -u v, v u -v
                store(at, x.yes());
                store(at.add(c), ui.no());
                store(at.add(c + a + 1), vi.yes_end());
                let at = at.add(a + b + c + 3);
                store(at, x.yes());
                store(at.add(c), ui.yes());
                store(at.add(c + a), vi.no_end());
                pen.0 = at.add(a + b + c + 3);
            }
            (1..bit).for_each(|lower| pen.no(numeral(v + lower)));
            pen.no(ui);
            pen.no_end(vi);
            (1..bit).for_each(|lower| pen.no(numeral(v + lower)));
            pen.yes(ui);
            pen.yes_end(vi);
        }
        pen
    }

    /// Group 5: for each pair (b, h), p compares v(b) with v(h), and q compares u(b) with v(h).
    #[inline(always)]
    unsafe fn comparisons<const FOUR: bool>(&self, pair: usize, pen: Pen) -> Pen {
        let sizes = &self.sizes;
        let (atom, y) = (
            self.program.partner(pair),
            sizes.v(self.program.owner(pair)),
        );
        let w = sizes.w;
        let pen = chain::<FOUR>(w, sizes.p(pair), sizes.v(atom), y, pen);
        chain::<FOUR>(w, sizes.q(pair), sizes.u(atom), y, pen)
    }

    /// Group 6: s(r) says that rule r founds its head; a true body bounds the head's level from above.
    #[inline(always)]
    unsafe fn founding(&self, rule: usize, mut pen: Pen) -> Pen {
        let sizes = &self.sizes;
        let (t, s) = (numeral(sizes.t(rule)), numeral(sizes.s(rule)));
        let pairs = self.program.pair_start(rule)..self.program.pair_start(rule + 1);
        let p = |pair| numeral(sizes.p(pair) + sizes.w);
        pen.no(s);
        pen.yes_end(t);
        for pair in pairs.clone() {
            pen.no(s);
            pen.yes_end(p(pair));
        }
        pen.yes(s);
        pen.no(t);
        pairs.clone().for_each(|pair| pen.no(p(pair)));
        pen.end();
        pen.no(t);
        if pairs.is_empty() {
            let v = sizes.v(self.program.head(rule));
            pen.yes_end(numeral(v + 1));
            for bit in 2..=sizes.w {
                pen.no(t);
                pen.no_end(numeral(v + bit));
            }
        } else {
            pairs.for_each(|pair| pen.no(numeral(sizes.q(pair) + sizes.w)));
            pen.end();
        }
        pen
    }

    /// Group 7: a true atom is founded by one of its rules.
    #[inline(always)]
    unsafe fn founded(&self, item: usize, mut pen: Pen) -> Pen {
        pen.no(numeral(item + 1));
        self.rules(item + 1, |rule| pen.yes(numeral(self.sizes.s(rule))));
        pen.end();
        pen
    }
}

/// z(i) says that the lowest i bits of x are below those of y.
#[inline(always)]
unsafe fn chain<const FOUR: bool>(w: usize, z: usize, x: usize, y: usize, pen: Pen) -> Pen {
    let size = |x: Numeral| if FOUR { 5 } else { x.size() };
    let (mut at, mut below) = (pen.0, numeral(z + 1));
    {
        let (zi, xi, yi) = (below, numeral(x + 1), numeral(y + 1));
        let (a, b, c) = (size(zi), size(xi), size(yi));
        store(at, zi.no());
        store(at.add(a + 1), xi.no_end());
        at = at.add(a + b + 4);
        store(at, zi.no());
        store(at.add(a + 1), yi.yes_end());
        at = at.add(a + c + 3);
        store(at, zi.yes());
        store(at.add(a), xi.yes());
        store(at.add(a + b), yi.no_end());
        at = at.add(a + b + c + 3);
    }
    for bit in 2..=w {
        let (zi, xi, yi, g) = (numeral(z + bit), numeral(x + bit), numeral(y + bit), below);
        let (a, b, c, d) = (size(zi), size(xi), size(yi), size(g));
        // -z -x y, -z -x g, -z y g
        store(at, zi.no());
        store(at.add(a + 1), xi.no());
        store(at.add(a + b + 2), yi.yes_end());
        at = at.add(a + b + c + 4);
        store(at, zi.no());
        store(at.add(a + 1), xi.no());
        store(at.add(a + b + 2), g.yes_end());
        at = at.add(a + b + d + 4);
        store(at, zi.no());
        store(at.add(a + 1), yi.yes());
        store(at.add(a + c + 1), g.yes_end());
        at = at.add(a + c + d + 3);
        // z x -y, z x -g, z -y -g
        store(at, zi.yes());
        store(at.add(a), xi.yes());
        store(at.add(a + b), yi.no_end());
        at = at.add(a + b + c + 3);
        store(at, zi.yes());
        store(at.add(a), xi.yes());
        store(at.add(a + b), g.no_end());
        at = at.add(a + b + d + 3);
        store(at, zi.yes());
        store(at.add(a), yi.no());
        store(at.add(a + c + 1), g.no_end());
        at = at.add(a + c + d + 4);
        below = zi;
    }
    Pen(at)
}
