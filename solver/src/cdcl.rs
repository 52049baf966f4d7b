//! Conflict-driven clause learning: two watched literals, first unique implication point, activities, saved phases,
//! Luby restarts, and removal of learnt clauses. No randomness: equal input gives equal output.

use std::cmp::Reverse;
use std::collections::BinaryHeap;

/// A literal: twice the variable's index from 0, plus 1 when negated.
#[derive(Clone, Copy, PartialEq, Eq)]
struct Lit(u32);

impl Lit {
    fn new(var: usize, positive: bool) -> Lit {
        Lit(2 * var as u32 + !positive as u32)
    }

    /// From a signed number of DIMACS, not 0.
    fn from_signed(number: i32) -> Lit {
        Lit::new(number.unsigned_abs() as usize - 1, number > 0)
    }

    fn var(self) -> usize {
        (self.0 / 2) as usize
    }

    fn positive(self) -> bool {
        self.0 & 1 == 0
    }

    fn negated(self) -> Lit {
        Lit(self.0 ^ 1)
    }

    fn index(self) -> usize {
        self.0 as usize
    }
}

/// Two or more literals. The first two are watched; a clause that is a reason has its implied literal first.
struct Clause {
    lits: Vec<Lit>,
    /// For a learnt clause, the number of decision levels in it when it was learnt; 0 for a given clause.
    spread: usize,
}

/// A clause that watches a literal, and another literal of it: where that is true the clause need not be looked at.
#[derive(Clone, Copy)]
struct Watch {
    clause: usize,
    other: Lit,
}

const RESTART_UNIT: usize = 100;
const ACTIVITY_DECAY: f64 = 0.95;
const ACTIVITY_LIMIT: f64 = 1e100;
const FIRST_LEARNT_LIMIT: usize = 4000;
/// Learnt clauses of so few decision levels are never removed.
const KEPT_SPREAD: usize = 2;

pub struct Solver {
    clauses: Vec<Clause>,
    learnt: usize,
    /// With more learnt clauses than this, a restart removes half of them.
    pub learnt_limit: usize,
    /// The clauses that watch a literal, by its index.
    watches: Vec<Vec<Watch>>,
    values: Vec<Option<bool>>,
    phases: Vec<bool>,
    levels: Vec<usize>,
    reasons: Vec<Option<usize>>,
    /// The true literals in the order of assignment, and how many there were before each decision.
    trail: Vec<Lit>,
    decisions: Vec<usize>,
    /// How many literals of the trail are propagated.
    propagated: usize,
    activity: Vec<f64>,
    step: f64,
    /// Variables by the bits of their activity, which order as the numbers do; the smaller variable first on a tie.
    /// Each unassigned variable has its current entry, with the key in `queued`; other entries are passed over.
    queue: BinaryHeap<(u64, Reverse<usize>)>,
    queued: Vec<Option<u64>>,
    seen: Vec<bool>,
    /// False once the clauses have no model.
    consistent: bool,
}

impl Solver {
    pub fn new(vars: usize) -> Solver {
        let mut solver = Solver {
            clauses: Vec::new(),
            learnt: 0,
            learnt_limit: FIRST_LEARNT_LIMIT,
            watches: vec![Vec::new(); 2 * vars],
            values: vec![None; vars],
            phases: vec![false; vars],
            levels: vec![0; vars],
            reasons: vec![None; vars],
            trail: Vec::new(),
            decisions: Vec::new(),
            propagated: 0,
            activity: vec![0.0; vars],
            step: 1.0,
            queue: BinaryHeap::new(),
            queued: vec![None; vars],
            seen: vec![false; vars],
            consistent: true,
        };
        (0..vars).for_each(|var| solver.enqueue(var));
        solver
    }

    /// Adds a clause of signed literals, each of a variable from 1 to `vars`. May be called again after `solve`.
    pub fn add_clause(&mut self, numbers: &[i32]) {
        let mut lits: Vec<Lit> = numbers.iter().map(|&number| Lit::from_signed(number)).collect();
        lits.sort_by_key(|lit| lit.0);
        lits.dedup();
        let tautology = lits.windows(2).any(|pair| pair[0] == pair[1].negated());
        if tautology || lits.iter().any(|&lit| self.value(lit) == Some(true)) {
            return;
        }
        lits.retain(|&lit| self.value(lit).is_none());
        match lits.len() {
            0 => self.consistent = false,
            1 => self.assign(lits[0], None),
            _ => {
                self.attach(Clause { lits, spread: 0 });
            }
        }
    }

    /// A model of the clauses, one value for each variable, or none.
    pub fn solve(&mut self) -> Option<Vec<bool>> {
        let mut restarts = 0;
        let mut conflicts = 0;
        while self.consistent {
            if let Some(conflict) = self.propagate() {
                if self.decisions.is_empty() {
                    self.consistent = false;
                    break;
                }
                self.learn_from(conflict);
                conflicts += 1;
            } else if conflicts >= RESTART_UNIT * luby(restarts) {
                restarts += 1;
                conflicts = 0;
                self.backtrack(0);
                if self.learnt > self.learnt_limit {
                    self.remove_learnt();
                }
            } else if let Some(var) = self.next_var() {
                self.decisions.push(self.trail.len());
                self.assign(Lit::new(var, self.phases[var]), None);
            } else {
                let model = self.values.iter().map(|value| *value == Some(true)).collect();
                self.backtrack(0);
                return Some(model);
            }
        }
        None
    }

    fn value(&self, lit: Lit) -> Option<bool> {
        self.values[lit.var()].map(|value| value == lit.positive())
    }

    fn assign(&mut self, lit: Lit, reason: Option<usize>) {
        let var = lit.var();
        self.values[var] = Some(lit.positive());
        self.levels[var] = self.decisions.len();
        self.reasons[var] = reason;
        self.trail.push(lit);
    }

    fn attach(&mut self, clause: Clause) -> usize {
        let number = self.clauses.len();
        let (first, second) = (clause.lits[0], clause.lits[1]);
        self.watches[first.index()].push(Watch { clause: number, other: second });
        self.watches[second.index()].push(Watch { clause: number, other: first });
        self.clauses.push(clause);
        number
    }

    fn enqueue(&mut self, var: usize) {
        let key = self.activity[var].to_bits();
        if self.queued[var] != Some(key) {
            self.queued[var] = Some(key);
            self.queue.push((key, Reverse(var)));
        }
    }

    fn next_var(&mut self) -> Option<usize> {
        while let Some((key, Reverse(var))) = self.queue.pop() {
            if self.queued[var] == Some(key) {
                self.queued[var] = None;
                if self.values[var].is_none() {
                    return Some(var);
                }
            }
        }
        None
    }

    /// Assigns what follows from the trail; a clause whose literals are all false, if one is met.
    fn propagate(&mut self) -> Option<usize> {
        while self.propagated < self.trail.len() {
            let falsified = self.trail[self.propagated].negated();
            self.propagated += 1;
            let watches = std::mem::take(&mut self.watches[falsified.index()]);
            let mut kept = Vec::with_capacity(watches.len());
            let mut conflict = None;
            for (at, &watch) in watches.iter().enumerate() {
                if self.value(watch.other) == Some(true) {
                    kept.push(watch);
                    continue;
                }
                let lits = &mut self.clauses[watch.clause].lits;
                if lits[0] == falsified {
                    lits.swap(0, 1);
                }
                let first = lits[0];
                let values = &self.values;
                let is_false = |lit: Lit| values[lit.var()] == Some(!lit.positive());
                let watch = Watch { clause: watch.clause, other: first };
                if let Some(next) = (2..lits.len()).find(|&k| !is_false(lits[k])) {
                    lits.swap(1, next);
                    self.watches[lits[1].index()].push(watch);
                    continue;
                }
                kept.push(watch);
                if is_false(first) {
                    conflict = Some(watch.clause);
                    kept.extend_from_slice(&watches[at + 1..]);
                    break;
                }
                if self.value(first).is_none() {
                    self.assign(first, Some(watch.clause));
                }
            }
            self.watches[falsified.index()] = kept;
            if conflict.is_some() {
                return conflict;
            }
        }
        None
    }

    /// Learns the clause of the first unique implication point, goes back to where it implies a literal, assigns it.
    fn learn_from(&mut self, conflict: usize) {
        let level = self.decisions.len();
        let mut lits: Vec<Lit> = Vec::new();
        let mut marked = Vec::new();
        let mut open = 0;
        let mut clause = conflict;
        let mut at = self.trail.len();
        let asserted = loop {
            for k in 0..self.clauses[clause].lits.len() {
                let lit = self.clauses[clause].lits[k];
                let var = lit.var();
                if self.seen[var] || self.levels[var] == 0 {
                    continue;
                }
                self.seen[var] = true;
                marked.push(var);
                self.raise(var);
                if self.levels[var] == level {
                    open += 1;
                } else {
                    lits.push(lit);
                }
            }
            loop {
                at -= 1;
                if self.seen[self.trail[at].var()] {
                    break;
                }
            }
            let lit = self.trail[at];
            open -= 1;
            match self.reasons[lit.var()] {
                Some(reason) if open > 0 => clause = reason,
                _ => break lit.negated(),
            }
        };
        // A literal whose reason holds only literals that are marked or false at level 0 is implied by the others.
        let implied = |lit: &Lit| match self.reasons[lit.var()] {
            None => false,
            Some(reason) => {
                (self.clauses[reason].lits.iter()).all(|other| self.seen[other.var()] || self.levels[other.var()] == 0)
            }
        };
        let mut clause = vec![asserted];
        clause.extend(lits.iter().filter(|lit| !implied(lit)));
        for var in marked {
            self.seen[var] = false;
        }
        self.step /= ACTIVITY_DECAY;
        let mut levels: Vec<usize> = clause.iter().map(|lit| self.levels[lit.var()]).collect();
        let back = levels[1..].iter().copied().max().unwrap_or(0);
        if let Some(place) = (1..clause.len()).find(|&k| levels[k] == back) {
            clause.swap(1, place);
        }
        levels.sort_unstable();
        levels.dedup();
        self.backtrack(back);
        let reason = if clause.len() > 1 {
            self.learnt += 1;
            Some(self.attach(Clause { lits: clause, spread: levels.len() }))
        } else {
            None
        };
        self.assign(asserted, reason);
    }

    /// Raises the activity of an assigned variable; `backtrack` enqueues it again.
    fn raise(&mut self, var: usize) {
        self.activity[var] += self.step;
        if self.activity[var] > ACTIVITY_LIMIT {
            self.activity.iter_mut().for_each(|activity| *activity /= ACTIVITY_LIMIT);
            self.step /= ACTIVITY_LIMIT;
            self.queue.clear();
            self.queued.iter_mut().for_each(|key| *key = None);
            for var in 0..self.values.len() {
                if self.values[var].is_none() {
                    self.enqueue(var);
                }
            }
        }
    }

    /// Takes back every decision above the level.
    fn backtrack(&mut self, level: usize) {
        if self.decisions.len() <= level {
            return;
        }
        for lit in self.trail.split_off(self.decisions[level]) {
            self.phases[lit.var()] = lit.positive();
            self.values[lit.var()] = None;
            self.reasons[lit.var()] = None;
            self.enqueue(lit.var());
        }
        self.decisions.truncate(level);
        self.propagated = self.trail.len();
    }

    /// Removes the learnt clauses of the most decision levels, about half, and raises the limit. Only at level 0,
    /// where no reason is looked up.
    fn remove_learnt(&mut self) {
        let mut spreads: Vec<usize> =
            self.clauses.iter().map(|clause| clause.spread).filter(|&spread| spread > 0).collect();
        spreads.sort_unstable();
        let bound = spreads[spreads.len() / 2].max(KEPT_SPREAD);
        self.reasons.iter_mut().for_each(|reason| *reason = None);
        self.watches.iter_mut().for_each(Vec::clear);
        let clauses = std::mem::take(&mut self.clauses);
        for clause in clauses.into_iter().filter(|clause| clause.spread <= bound) {
            self.attach(clause);
        }
        self.learnt = self.clauses.iter().filter(|clause| clause.spread > 0).count();
        self.learnt_limit += self.learnt_limit / 4;
    }
}

/// The sequence 1 1 2 1 1 2 4 1 1 2 1 1 2 4 8 .., from index 0.
fn luby(index: usize) -> usize {
    let (mut index, mut size) = (index, 1);
    while size < index + 1 {
        size = 2 * size + 1;
    }
    while size - 1 != index {
        size /= 2;
        index %= size;
    }
    size / 2 + 1
}
