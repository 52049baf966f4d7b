//! A full program, always the same: 126 atoms, 500 rules, 500 body atoms (400 positive, 100 negated).

use std::fmt::Write;

const ATOMS: u32 = 126;
/// Atoms that a quarter of the rules have as head.
const OFTEN: [u32; 6] = [1, 7, 31, 64, 100, 126];
/// An atom that heads no rule.
const NEVER: u32 = 77;
/// How many rules there are with so many positive and negated body atoms, beside the long one.
const SHAPES: [(usize, usize, usize); 8] = [
    (175, 0, 0),
    (240, 1, 0),
    (20, 2, 0),
    (6, 3, 0),
    (20, 0, 1),
    (2, 0, 2),
    (30, 1, 1),
    (6, 2, 1),
];
/// Place of the rule with 60 positive and 40 negated body atoms.
const LONG: usize = 250;

/// A linear congruential generator, its upper bits.
struct Numbers(u64);

impl Numbers {
    fn below(&mut self, bound: u32) -> u32 {
        self.0 = self
            .0
            .wrapping_mul(6_364_136_223_846_793_005)
            .wrapping_add(1_442_695_040_888_963_407);
        ((self.0 >> 33) % bound as u64) as u32
    }

    fn head(&mut self) -> u32 {
        if self.below(4) == 0 {
            return OFTEN[self.below(OFTEN.len() as u32) as usize];
        }
        match 1 + self.below(ATOMS - 1) {
            atom if atom < NEVER => atom,
            atom => atom + 1,
        }
    }

    /// So many different atoms, ascending.
    fn atoms(&mut self, count: usize) -> Vec<u32> {
        let mut atoms = Vec::new();
        while atoms.len() < count {
            let atom = 1 + self.below(ATOMS);
            if let Err(place) = atoms.binary_search(&atom) {
                atoms.insert(place, atom);
            }
        }
        atoms
    }
}

fn list(atoms: &[u32]) -> String {
    atoms
        .iter()
        .map(u32::to_string)
        .collect::<Vec<_>>()
        .join(" ")
}

/// Its text.
pub fn full_program() -> String {
    let mut numbers = Numbers(1);
    let mut shapes: Vec<(usize, usize)> = SHAPES
        .iter()
        .flat_map(|&(count, positive, negative)| vec![(positive, negative); count])
        .collect();
    for i in (1..shapes.len()).rev() {
        shapes.swap(i, numbers.below(i as u32 + 1) as usize);
    }
    shapes.insert(LONG, (60, 40));

    let mut rules: Vec<(u32, Vec<u32>, Vec<u32>)> = Vec::new();
    for (i, &(positive, negative)) in shapes.iter().enumerate() {
        // Every tenth rule repeats the last one of its shape, if there is one.
        let same = rules
            .iter()
            .rfind(|rule| rule.1.len() == positive && rule.2.len() == negative);
        let rule = match same {
            Some(rule) if i % 10 == 9 => rule.clone(),
            _ => (
                numbers.head(),
                numbers.atoms(positive),
                numbers.atoms(negative),
            ),
        };
        rules.push(rule);
    }

    let mut text = format!("(atoms {ATOMS})\n");
    for (head, positive, negative) in &rules {
        writeln!(
            text,
            "(rule {head} ({}) ({}))",
            list(positive),
            list(negative)
        )
        .unwrap();
    }
    text
}
