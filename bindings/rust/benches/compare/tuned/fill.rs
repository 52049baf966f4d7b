//! Filling out a proposed set of atoms.

use super::text::{read_program, Program};
use super::{store, Refusal, Sizes, MAX_ATOMS, MAX_BODIES, MAX_RULES};
use std::mem::MaybeUninit;

/// The bits of a number up to 127, a byte for each, lowest first.
static SPREAD: [u64; 128] = {
    let mut words = [0; 128];
    let mut number = 0;
    while number < 128 {
        let mut bit = 0;
        while bit < 7 {
            words[number] |= (number as u64 >> bit & 1) << (8 * bit);
            bit += 1;
        }
        number += 1;
    }
    words
};

/// By atoms; place 0 is not used.
type Levels = [u8; MAX_ATOMS + 1];

/// How many atoms are true, and the highest level.
pub fn fill_out(
    text: &[u8],
    set: &[u8],
    assignment: &mut [u8],
    levels: &mut [u8],
) -> Result<(usize, usize), Refusal> {
    let mut program = Program::UNSET;
    let sizes = read_program(text, &mut program)?;
    let variables = sizes.room(assignment, levels)?;
    let n = sizes.n;
    if set.len() != n {
        return Err((17, n));
    }
    if set.iter().fold(0, |all, &byte| all | byte) > 1 {
        let index = set.iter().position(|&byte| byte > 1);
        return Err((17, index.unwrap_or(0)));
    }
    let mut found: Levels = [0; MAX_ATOMS + 1];
    // SAFETY: the program was read with these sizes; the set has n bytes, the assignment at least V.
    unsafe {
        let (count, highest) = levels_of(&program, &sizes, set.as_ptr(), &mut found);
        let found_atoms = found.get_unchecked(1..n + 1);
        let differs = |(&given, &level): (&u8, &u8)| given ^ (level > 0) as u8;
        let pairs = set.iter().zip(found_atoms);
        if pairs
            .clone()
            .map(differs)
            .fold(0, |all, differs| all | differs)
            != 0
        {
            let index = pairs.map(differs).position(|differs| differs != 0);
            return Err((18, index.unwrap_or(0) + 1));
        }
        levels.get_unchecked_mut(..n).copy_from_slice(found_atoms);
        let values = assignment.as_mut_ptr();
        values.copy_from_nonoverlapping(set.as_ptr(), n);
        fill(&program, &sizes, &found, values, variables);
        Ok((count, highest))
    }
}

/// For each atom the first stage of the reduct that holds it, 0 if none does; how many atoms have one, and the highest. An atom that gets
/// its level stands in a queue, and each rule counts the body atoms that have none.
#[inline(always)]
unsafe fn levels_of(
    program: &Program,
    sizes: &Sizes,
    set: *const u8,
    levels: &mut Levels,
) -> (usize, usize) {
    // Where an atom stands in bodies: pairs from 1, and 0 ends the links.
    let mut first = [0u16; MAX_ATOMS + 1];
    let mut next = [MaybeUninit::<u16>::uninit(); MAX_BODIES + 1];
    let mut rules = [MaybeUninit::<u16>::uninit(); MAX_BODIES + 1];
    let mut open = [MaybeUninit::<u8>::uninit(); MAX_RULES];
    let mut queue = Queue {
        levels,
        atoms: [MaybeUninit::uninit(); MAX_ATOMS],
        tail: 0,
    };
    for rule in 0..sizes.m {
        let negated = program.negated_start(rule)..program.negated_start(rule + 1);
        let mut blocked = 0;
        for place in negated {
            blocked |= *set.add(program.negated(place) - 1);
        }
        if blocked != 0 {
            continue;
        }
        let pairs = program.pair_start(rule)..program.pair_start(rule + 1);
        if pairs.is_empty() {
            queue.give(program.head(rule), 1);
            continue;
        }
        open.get_unchecked_mut(rule).write(pairs.len() as u8);
        for pair in pairs {
            let place = first.get_unchecked_mut(program.partner(pair));
            next.get_unchecked_mut(pair + 1).write(*place);
            rules.get_unchecked_mut(pair + 1).write(rule as u16);
            *place = pair as u16 + 1;
        }
    }
    let (mut served, mut highest) = (0, 0);
    while served < queue.tail {
        let atom = queue.atoms.get_unchecked(served).assume_init() as usize;
        served += 1;
        highest = *queue.levels.get_unchecked(atom);
        let mut link = *first.get_unchecked(atom) as usize;
        while link > 0 {
            let rule = rules.get_unchecked(link).assume_init() as usize;
            let open = open.get_unchecked_mut(rule).assume_init_mut();
            *open -= 1;
            if *open == 0 {
                queue.give(program.head(rule), highest + 1);
            }
            link = next.get_unchecked(link).assume_init() as usize;
        }
    }
    (queue.tail, highest as usize)
}

/// The atoms that have a level, in the order in which they got it.
struct Queue<'a> {
    levels: &'a mut Levels,
    atoms: [MaybeUninit<u8>; MAX_ATOMS],
    tail: usize,
}

impl Queue<'_> {
    /// A level for an atom that has none. SAFETY: it is one of the program's.
    #[inline(always)]
    unsafe fn give(&mut self, atom: usize, level: u8) {
        let place = self.levels.get_unchecked_mut(atom);
        if *place == 0 {
            *place = level;
            self.atoms.get_unchecked_mut(self.tail).write(atom as u8);
            self.tail += 1;
        }
    }
}

/// The values behind those of the atoms. Counters are written eight bytes at a time, upwards, and the last ones exactly.
#[inline(always)]
unsafe fn fill(
    program: &Program,
    sizes: &Sizes,
    levels: &Levels,
    values: *mut u8,
    variables: usize,
) {
    let Sizes { n, m, w, .. } = *sizes;
    let level = |atom: usize| *levels.get_unchecked(atom) as usize;
    let spread = |number: usize| *SPREAD.get_unchecked(number & 127);
    // Bit i: the lowest i bits of x are below those of y, which is what subtraction borrows.
    let below = |x: usize, y: usize| spread((x ^ y ^ x.wrapping_sub(y)) >> 1);

    let mut to = values.add(n + 2 * m);
    let end = values.add(variables);
    let put = |to: *mut u8, word: u64| {
        if end.offset_from(to) >= 8 {
            store(to, word);
        } else {
            to.copy_from_nonoverlapping(word.to_le_bytes().as_ptr(), w);
        }
    };
    for add in 0..2 {
        for atom in 1..=n {
            put(to, spread(level(atom) + add));
            to = to.add(w);
        }
    }
    for rule in 0..m {
        let y = level(program.head(rule));
        let (mut body, mut founds) = (true, true);
        for place in program.negated_start(rule)..program.negated_start(rule + 1) {
            body &= level(program.negated(place)) == 0;
        }
        for pair in program.pair_start(rule)..program.pair_start(rule + 1) {
            let x = level(program.partner(pair));
            body &= x > 0;
            founds &= x < y;
            put(to, below(x, y));
            put(to.add(w), below(x + 1, y));
            to = to.add(2 * w);
        }
        values.add(n + rule).write(body as u8);
        values.add(n + m + rule).write((body & founds) as u8);
    }
}
