//! The clauses of a program (document 01, "Clauses, in order").

use crate::layout::Layout;
use crate::program::{Program, MAX_ATOMS, MAX_RULES};
use std::iter::once;
use std::ops::ControlFlow::{self, Continue};

/// Goes on, or ends the walk.
pub type Flow = ControlFlow<()>;

/// What takes the clauses, one after the other.
pub trait Sink {
    fn clause(&mut self, literals: impl IntoIterator<Item = i32, IntoIter: Clone>) -> Flow;
}

/// A program with what its clauses are made from.
pub struct Clauses<'a> {
    program: &'a Program,
    pub layout: Layout,
    by_head: ByHead,
}

impl<'a> Clauses<'a> {
    pub fn new(program: &'a Program) -> Self {
        Clauses {
            program,
            layout: Layout::new(program),
            by_head: ByHead::new(program),
        }
    }

    /// Lines `first` to C, in order; `first` is at least 1. Groups and their items that end before it are passed over by their counts.
    pub fn walk(&self, first: usize, out: &mut impl Sink) -> Flow {
        let out = &mut Skip {
            left: first - 1,
            out,
        };
        let counts = self.layout.groups();
        self.bodies(counts[0], out)?;
        self.completion(counts[1], out)?;
        self.false_levels(counts[2], out)?;
        self.successors(counts[3], out)?;
        self.comparisons(counts[4], out)?;
        self.founding(counts[5], out)?;
        self.founded(counts[6], out)
    }

    /// Group 1: t(r) is the body of rule r.
    fn bodies(&self, count: usize, out: &mut Skip<impl Sink>) -> Flow {
        if out.passes(count) {
            return Continue(());
        }
        for (r, rule) in (1..).zip(self.program.rules()) {
            if out.passes(rule.body() + 1) {
                continue;
            }
            let t = self.layout.t(r);
            let positive = self.program.positive(rule).iter().map(|&b| b as i32);
            let negative = self.program.negative(rule).iter().map(|&c| c as i32);
            for b in positive.clone() {
                out.clause([-t, b])?;
            }
            for c in negative.clone() {
                out.clause([-t, -c])?;
            }
            out.clause(once(t).chain(positive.map(|b| -b)).chain(negative))?;
        }
        Continue(())
    }

    /// Group 2: an atom is true exactly if a body of its rules is.
    fn completion(&self, count: usize, out: &mut Skip<impl Sink>) -> Flow {
        if out.passes(count) {
            return Continue(());
        }
        for atom in 1..=self.layout.n {
            let rules = self.by_head.rules(atom);
            if out.passes(rules.len() + 1) {
                continue;
            }
            let a = atom as i32;
            let bodies = rules.iter().map(|&r| self.layout.t(r as usize));
            for t in bodies.clone() {
                out.clause([a, -t])?;
            }
            out.clause(once(-a).chain(bodies))?;
        }
        Continue(())
    }

    /// Group 3: a false atom has counter 0.
    fn false_levels(&self, count: usize, out: &mut Skip<impl Sink>) -> Flow {
        if out.passes(count) {
            return Continue(());
        }
        for a in 1..=self.layout.n as u8 {
            if out.passes(self.layout.w) {
                continue;
            }
            let v = self.layout.v(a);
            for i in 1..=self.layout.w as i32 {
                out.clause([a as i32, -(v + i)])?;
            }
        }
        Continue(())
    }

    /// Group 4: u is v plus 1.
    fn successors(&self, count: usize, out: &mut Skip<impl Sink>) -> Flow {
        if out.passes(count) {
            return Continue(());
        }
        let w = self.layout.w;
        for a in 1..=self.layout.n as u8 {
            if out.passes(w * (w + 1)) {
                continue;
            }
            let (v, u) = (self.layout.v(a), self.layout.u(a));
            out.clause([-(u + 1), -(v + 1)])?;
            out.clause([u + 1, v + 1])?;
            for i in 2..=w as i32 {
                let (ui, vi) = (u + i, v + i);
                for j in 1..i {
                    out.clause([v + j, -ui, vi])?;
                    out.clause([v + j, ui, -vi])?;
                }
                let lower = (1..i).map(|j| -(v + j));
                out.clause(lower.clone().chain([-ui, -vi]))?;
                out.clause(lower.chain([ui, vi]))?;
            }
        }
        Continue(())
    }

    /// Group 5: for each pair (b, h), p compares v(b) with v(h), and q compares u(b) with v(h).
    fn comparisons(&self, count: usize, out: &mut Skip<impl Sink>) -> Flow {
        if out.passes(count) {
            return Continue(());
        }
        let layout = &self.layout;
        let mut k = 0;
        for rule in self.program.rules() {
            let y = layout.v(rule.head);
            for &b in self.program.positive(rule) {
                k += 1;
                if out.passes(12 * layout.w - 6) {
                    continue;
                }
                self.chain(layout.p(k), layout.v(b), y, out)?;
                self.chain(layout.q(k), layout.u(b), y, out)?;
            }
        }
        Continue(())
    }

    /// z(i) says that the lowest i bits of x are below those of y.
    fn chain(&self, z: i32, x: i32, y: i32, out: &mut Skip<impl Sink>) -> Flow {
        out.clause([-(z + 1), -(x + 1)])?;
        out.clause([-(z + 1), y + 1])?;
        out.clause([z + 1, x + 1, -(y + 1)])?;
        for i in 2..=self.layout.w as i32 {
            let (zi, xi, yi, g) = (z + i, x + i, y + i, z + i - 1);
            out.clause([-zi, -xi, yi])?;
            out.clause([-zi, -xi, g])?;
            out.clause([-zi, yi, g])?;
            out.clause([zi, xi, -yi])?;
            out.clause([zi, xi, -g])?;
            out.clause([zi, -yi, -g])?;
        }
        Continue(())
    }

    /// Group 6: s(r) says that rule r founds its head; a true body bounds the head's level from above.
    fn founding(&self, count: usize, out: &mut Skip<impl Sink>) -> Flow {
        if out.passes(count) {
            return Continue(());
        }
        let w = self.layout.w as i32;
        let mut k = 0;
        for (r, rule) in (1..).zip(self.program.rules()) {
            let pairs = k + 1..=k + rule.pairs();
            k += rule.pairs();
            let last = if pairs.is_empty() { w as usize } else { 1 };
            if out.passes(2 + rule.pairs() + last) {
                continue;
            }
            let (t, s) = (self.layout.t(r), self.layout.s(r));
            let below = pairs.clone().map(|k| self.layout.p(k) + w);
            let next_below = pairs.clone().map(|k| self.layout.q(k) + w);
            out.clause([-s, t])?;
            for p in below.clone() {
                out.clause([-s, p])?;
            }
            out.clause([s, -t].into_iter().chain(below.map(|p| -p)))?;
            if pairs.is_empty() {
                let v = self.layout.v(rule.head);
                out.clause([-t, v + 1])?;
                for i in 2..=w {
                    out.clause([-t, -(v + i)])?;
                }
            } else {
                out.clause(once(-t).chain(next_below.map(|q| -q)))?;
            }
        }
        Continue(())
    }

    /// Group 7: a true atom is founded by one of its rules.
    fn founded(&self, count: usize, out: &mut Skip<impl Sink>) -> Flow {
        if out.passes(count) {
            return Continue(());
        }
        for a in 1..=self.layout.n {
            let rules = self.by_head.rules(a).iter();
            let founding = rules.map(|&r| self.layout.s(r as usize));
            out.clause(once(-(a as i32)).chain(founding))?;
        }
        Continue(())
    }
}

/// Passes over the first `left` clauses.
struct Skip<'a, S> {
    left: usize,
    out: &'a mut S,
}

impl<S: Sink> Skip<'_, S> {
    /// Whether so many clauses are all among those to pass over; they are then behind.
    fn passes(&mut self, count: usize) -> bool {
        let passes = self.left >= count;
        if passes {
            self.left -= count;
        }
        passes
    }

    #[inline]
    fn clause(&mut self, literals: impl IntoIterator<Item = i32, IntoIter: Clone>) -> Flow {
        if self.passes(1) {
            return Continue(());
        }
        self.out.clause(literals)
    }
}

/// The rules of each atom, in text order: those of atom a at `first[a - 1]..first[a]`.
struct ByHead {
    first: [u16; MAX_ATOMS + 1],
    rules: [u16; MAX_RULES],
}

impl ByHead {
    /// By counting.
    fn new(program: &Program) -> Self {
        let mut first = [0; MAX_ATOMS + 1];
        for rule in program.rules() {
            first[rule.head as usize] += 1;
        }
        for a in 1..=program.atoms {
            first[a] += first[a - 1];
        }
        let mut next = first;
        let mut rules = [0; MAX_RULES];
        for (r, rule) in (1..).zip(program.rules()) {
            let place = &mut next[rule.head as usize - 1];
            rules[*place as usize] = r;
            *place += 1;
        }
        ByHead { first, rules }
    }

    fn rules(&self, a: usize) -> &[u16] {
        &self.rules[self.first[a - 1] as usize..self.first[a] as usize]
    }
}
