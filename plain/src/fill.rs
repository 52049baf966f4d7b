//! Filling out a proposed set of atoms (document 01, "Meaning", "Check and filling out", rows 8, 17 and 18 of "Verdicts").

use crate::layout::Layout;
use crate::program::{MAX_ATOMS, MAX_RULES};
use crate::{read_program, Program, Refusal};

/// For each atom the first stage that holds it, 0 if none does. Atom a is at place a, and place 0 is not used.
type Stages = [u8; MAX_ATOMS + 1];

/// How many atoms are true, and the highest level. Accepted, the assignment and the levels are written; refused, nothing is.
pub fn fill_out(
    text: &[u8],
    set: &[u8],
    assignment: &mut [u8],
    levels: &mut [u8],
) -> Result<(usize, usize), Refusal> {
    let mut program = Program::EMPTY;
    read_program(text, &mut program)?;
    let layout = Layout::new(&program);
    let (v, n) = layout.room(assignment, levels)?;
    if set.len() != n {
        return Err((17, n));
    }
    if let Some(index) = set.iter().position(|&byte| byte > 1) {
        return Err((17, index));
    }
    let (stages, highest) = stages(&program, set);
    let found = &stages[1..=n];
    if let Some(index) = (0..n).find(|&index| (set[index] == 1) != (found[index] > 0)) {
        return Err((18, index + 1));
    }
    levels[..n].copy_from_slice(found);
    fill(&program, &layout, set, &stages, &mut assignment[..v]);
    let count = set.iter().filter(|&&byte| byte == 1).count();
    Ok((count, highest))
}

/// The stages of the reduct by the set, one after the other until nothing is new, and the number of the last one.
fn stages(program: &Program, set: &[u8]) -> (Stages, usize) {
    let mut stages: Stages = [0; MAX_ATOMS + 1];
    // The rules of the reduct whose heads no stage holds so far.
    let mut open = [0; MAX_RULES];
    let mut count = 0;
    for (index, rule) in program.rules().iter().enumerate() {
        let negative = program.negative(rule);
        if negative.iter().all(|&c| set[c as usize - 1] == 0) {
            open[count] = index as u16;
            count += 1;
        }
    }
    for stage in 1u8.. {
        let (mut left, mut new) = (0, false);
        for at in 0..count {
            let rule = &program.rules()[open[at] as usize];
            if stages[rule.head as usize] != 0 {
                continue;
            }
            // Held before this stage: not 0, and below it.
            let held = |&b: &u8| stages[b as usize].wrapping_sub(1) < stage - 1;
            if program.positive(rule).iter().all(held) {
                stages[rule.head as usize] = stage;
                new = true;
            } else {
                open[left] = open[at];
                left += 1;
            }
        }
        if !new {
            return (stages, stage as usize - 1);
        }
        count = left;
    }
    unreachable!("there are no more stages than atoms");
}

/// The values of all variables, in the order of their numbers.
fn fill(program: &Program, layout: &Layout, set: &[u8], stages: &Stages, values: &mut [u8]) {
    let Layout { n, m, w, .. } = *layout;
    let (atoms, rest) = values.split_at_mut(n);
    let (bodies, rest) = rest.split_at_mut(m);
    let (founds, rest) = rest.split_at_mut(m);
    let (level_bits, rest) = rest.split_at_mut(n * w);
    let (next_bits, rest) = rest.split_at_mut(n * w);
    let mut chains = rest.chunks_exact_mut(w);
    let level = |a: u8| stages[a as usize];
    // At most n + 1, which w bits hold.
    let next = |a: u8| level(a) + 1;

    atoms.copy_from_slice(set);
    for a in 1..=n as u8 {
        let place = (a as usize - 1) * w;
        put_bits(&mut level_bits[place..place + w], level(a));
        put_bits(&mut next_bits[place..place + w], next(a));
    }
    for (r, rule) in program.rules().iter().enumerate() {
        let y = level(rule.head);
        let mut body = program.negative(rule).iter().all(|&c| level(c) == 0);
        let mut below = true;
        for &b in program.positive(rule) {
            body &= level(b) > 0;
            below &= level(b) < y;
            for x in [level(b), next(b)] {
                put_chain(chains.next().expect("two for each pair"), x, y);
            }
        }
        bodies[r] = body as u8;
        founds[r] = (body && below) as u8;
    }
}

/// Lowest first.
fn put_bits(bits: &mut [u8], x: u8) {
    for (i, bit) in bits.iter_mut().enumerate() {
        *bit = x >> i & 1;
    }
}

/// Bit i: the lowest i bits of x are below those of y.
fn put_chain(bits: &mut [u8], x: u8, y: u8) {
    for (i, bit) in bits.iter_mut().enumerate() {
        let low = (2u8 << i) - 1;
        *bit = ((x & low) < (y & low)) as u8;
    }
}

#[cfg(test)]
mod tests {
    use super::*;
    use crate::check;

    /// The reply, after comparing what an accepted set writes with what the check of the printed assignment writes.
    fn said(text: &str, set: &[u8]) -> Result<(usize, usize, Vec<u8>), Refusal> {
        let mut program = Program::EMPTY;
        read_program(text.as_bytes(), &mut program)?;
        let (v, n) = (Layout::new(&program).variables(), program.atoms);
        let (mut assignment, mut levels) = (vec![9; v + 1], vec![9; n + 1]);
        let reply = fill_out(text.as_bytes(), set, &mut assignment, &mut levels);
        if reply.is_err() {
            assert!(assignment.iter().chain(&levels).all(|&byte| byte == 9));
        }
        let (count, highest) = reply?;
        let literals: Vec<String> = (1..)
            .zip(&assignment[..v])
            .map(|(x, &value)| format!(" {}{x}", if value == 1 { "" } else { "-" }))
            .collect();
        let answer = format!("s SATISFIABLE\nv{} 0\n", literals.concat());
        let (mut checked, mut counters) = (vec![9; v + 1], vec![9; n + 1]);
        assert_eq!(
            check(
                text.as_bytes(),
                answer.as_bytes(),
                &mut checked,
                &mut counters
            ),
            Ok((count, highest, 0))
        );
        assert_eq!((&checked, &counters), (&assignment, &levels));
        levels.truncate(n);
        Ok((count, highest, levels))
    }

    #[test]
    fn the_fact() {
        let (mut assignment, mut levels) = ([9; 8], [9; 2]);
        let text = b"(atoms 1)\n(rule 1 () ())\n";
        let reply = fill_out(text, &[1], &mut assignment, &mut levels);
        assert_eq!(
            (reply, assignment, levels),
            (Ok((1, 1)), [1, 1, 1, 1, 0, 0, 1, 9], [1, 9])
        );
        assert_eq!(fill_out(text, &[1], &mut [9; 6], &mut []), Err((8, 7)));
        assert_eq!(fill_out(text, &[1], &mut [9; 7], &mut []), Err((8, 1)));
    }

    #[test]
    fn examples() {
        assert_eq!(said("(atoms 0)\n", &[]), Ok((0, 0, vec![])));
        let ring = "(atoms 2)\n(rule 1 (2) ())\n(rule 2 (1) ())\n";
        assert_eq!(said(ring, &[0, 0]), Ok((0, 0, vec![0, 0])));
        assert_eq!(said(ring, &[1, 1]), Err((18, 1)));
        let example = "(atoms 4)\n(rule 1 () ())\n(rule 1 (3) ())\n(rule 2 (1) ())\n(rule 3 (1 2) ())\n(rule 4 (3 4) ())\n";
        assert_eq!(said(example, &[1, 1, 1, 0]), Ok((3, 3, vec![1, 2, 3, 0])));
        assert_eq!(said(example, &[1, 1, 1, 1]), Err((18, 4)));
        let not_itself = "(atoms 1)\n(rule 1 () (1))\n";
        assert_eq!(said(not_itself, &[0]), Err((18, 1)));
        assert_eq!(said(not_itself, &[1]), Err((18, 1)));
        let choice = "(atoms 2)\n(rule 1 () (2))\n(rule 2 () (1))\n";
        assert_eq!(said(choice, &[1, 0]), Ok((1, 1, vec![1, 0])));
        assert_eq!(said(choice, &[0, 1]), Ok((1, 1, vec![0, 1])));
        assert_eq!(said(choice, &[1]), Err((17, 2)));
        assert_eq!(said(choice, &[3, 3, 3]), Err((17, 2)));
        assert_eq!(said(choice, &[1, 2]), Err((17, 1)));
        let again = "(atoms 1)\n(rule 1 () ())\n(rule 1 (1) ())\n";
        assert_eq!(said(again, &[1]), Ok((1, 1, vec![1])));
        let blocked = "(atoms 2)\n(rule 2 () ())\n(rule 1 (2) (2))\n";
        assert_eq!(said(blocked, &[0, 1]), Ok((1, 1, vec![0, 1])));
    }

    #[test]
    fn the_chain() {
        let mut text = "(atoms 126)\n(rule 1 () ())\n(rule 1 (126) ())\n".to_string();
        for a in 1..126 {
            text += &format!("(rule {} ({a}) ())\n", a + 1);
        }
        let levels = (1..=126).collect();
        assert_eq!(said(&text, &[1; 126]), Ok((126, 126, levels)));
    }
}
