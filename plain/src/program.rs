//! An accepted program (document 01, "Program text"): fixed arrays beside their counts.

pub const MAX_ATOMS: usize = 126;
pub const MAX_RULES: usize = 500;
pub const MAX_BODIES: usize = 500;

/// A rule: its positive body atoms are `bodies[start..middle]`, its negated ones `bodies[middle..end]`.
#[derive(Clone, Copy)]
pub struct Rule {
    pub head: u8,
    pub start: u16,
    pub middle: u16,
    pub end: u16,
}

impl Rule {
    const NONE: Rule = Rule {
        head: 0,
        start: 0,
        middle: 0,
        end: 0,
    };

    /// How many positive body atoms.
    pub fn pairs(&self) -> usize {
        (self.middle - self.start) as usize
    }

    /// How many body atoms, both lists counted.
    pub fn body(&self) -> usize {
        (self.end - self.start) as usize
    }
}

/// Rules and body atoms in text order.
pub struct Program {
    pub atoms: usize,
    rules: [Rule; MAX_RULES],
    rule_count: usize,
    bodies: [u8; MAX_BODIES],
    body_count: usize,
}

impl Program {
    pub const EMPTY: Program = Program {
        atoms: 0,
        rules: [Rule::NONE; MAX_RULES],
        rule_count: 0,
        bodies: [0; MAX_BODIES],
        body_count: 0,
    };

    pub fn rules(&self) -> &[Rule] {
        &self.rules[..self.rule_count]
    }

    /// How many body atoms.
    pub fn bodies(&self) -> usize {
        self.body_count
    }

    pub fn positive(&self, rule: &Rule) -> &[u8] {
        &self.bodies[rule.start as usize..rule.middle as usize]
    }

    pub fn negative(&self, rule: &Rule) -> &[u8] {
        &self.bodies[rule.middle as usize..rule.end as usize]
    }

    pub(crate) fn clear(&mut self) {
        (self.atoms, self.rule_count, self.body_count) = (0, 0, 0);
    }

    /// False if there is no room.
    pub(crate) fn push_rule(&mut self, rule: Rule) -> bool {
        push(&mut self.rules, &mut self.rule_count, rule)
    }

    /// False if there is no room.
    pub(crate) fn push_body(&mut self, atom: u8) -> bool {
        push(&mut self.bodies, &mut self.body_count, atom)
    }
}

fn push<T>(items: &mut [T], count: &mut usize, item: T) -> bool {
    match items.get_mut(*count) {
        Some(place) => {
            *place = item;
            *count += 1;
            true
        }
        None => false,
    }
}
