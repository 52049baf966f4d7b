//! The check of a solver answer (document 01, "Check and filling out", rows 8, 13, 14 and 16 of "Verdicts"; Q-3 of document 02).

use crate::answer::read_answer;
use crate::clauses::{Clauses, Flow, Sink};
use crate::layout::{Layout, MAX_VARIABLES};
use crate::{read_program, Program, Refusal};
use std::ops::ControlFlow::{Break, Continue};

/// In the assignment, for a variable that has no value yet. Its lowest bit is that of false.
const MISSING: u8 = 2;

/// How many atoms are true, the highest level, and how many variables the answer leaves out: they are read as false. Accepted, the
/// assignment and the levels are written; refusals 13, 14 and 16 zero the assignment's first V bytes, the others write nothing.
pub fn check(
    text: &[u8],
    answer: &[u8],
    assignment: &mut [u8],
    levels: &mut [u8],
) -> Result<(usize, usize, usize), Refusal> {
    let mut program = Program::EMPTY;
    read_program(text, &mut program)?;
    let clauses = Clauses::new(&program);
    let (v, n) = clauses.layout.room(assignment, levels)?;
    let mut values = [MISSING; MAX_VARIABLES];
    let values = &mut values[..v];
    let fault = assign(answer, values)?;
    let assumed = complete(values);
    let judged = fault
        .map_or(Ok(()), Err)
        .and_then(|()| judge(&clauses, values));
    if judged.is_err() {
        assignment[..v].fill(0);
        judged?;
    }
    assignment[..v].copy_from_slice(values);
    let count = values[..n].iter().filter(|&&value| value == 1).count();
    let highest = counters(&clauses.layout, values, &mut levels[..n]);
    Ok((count, highest, assumed))
}

/// The values that an answer gives to variables, and the first of rows 13 and 14. Rows 10 to 12 are the error.
fn assign(answer: &[u8], values: &mut [u8]) -> Result<Option<Refusal>, Refusal> {
    let mut fault = None;
    read_answer(answer, |literal| {
        match values.get_mut(literal.variable - 1) {
            Some(value) if *value == MISSING => *value = literal.positive as u8,
            Some(_) => _ = fault.get_or_insert((14, literal.spot)),
            None => _ = fault.get_or_insert((13, literal.spot)),
        }
    })?;
    Ok(fault)
}

/// Reads as false each variable without a value: how many there are.
fn complete(values: &mut [u8]) -> usize {
    // V fits 16 bits, which are quicker to add up.
    let mut assumed: u16 = 0;
    for value in values {
        assumed += (*value == MISSING) as u16;
        *value &= 1;
    }
    assumed as usize
}

/// Row 16: whether every clause is true.
fn judge(clauses: &Clauses, values: &[u8]) -> Result<(), Refusal> {
    let mut judge = Judge { values, passed: 0 };
    match clauses.walk(1, &mut judge) {
        Continue(()) => Ok(()),
        Break(()) => Err((16, judge.passed + 1)),
    }
}

/// Stops at the first clause without a true literal.
struct Judge<'a> {
    values: &'a [u8],
    passed: usize,
}

impl Sink for Judge<'_> {
    #[inline]
    fn clause(&mut self, literals: impl IntoIterator<Item = i32>) -> Flow {
        let holds = |literal: i32| {
            let value = self.values[literal.unsigned_abs() as usize - 1];
            value == (literal > 0) as u8
        };
        if !literals.into_iter().any(holds) {
            return Break(());
        }
        self.passed += 1;
        Continue(())
    }
}

/// Each atom's counter, lowest bit first in the values; the highest.
fn counters(layout: &Layout, values: &[u8], levels: &mut [u8]) -> usize {
    let first = layout.n + 2 * layout.m;
    let bits = values[first..].chunks_exact(layout.w);
    for (level, bits) in levels.iter_mut().zip(bits) {
        *level = bits.iter().rev().fold(0, |sum, &bit| 2 * sum + bit);
    }
    levels.iter().max().map_or(0, |&level| level as usize)
}

#[cfg(test)]
mod tests {
    use super::*;

    const FACT: &[u8] = b"(atoms 1)\n(rule 1 () ())\n";

    type Reply = Result<(usize, usize, usize), Refusal>;
    type Said = (Reply, [u8; 8], [u8; 2]);

    fn said(answer: &str) -> Said {
        let (mut assignment, mut levels) = ([9; 8], [9; 2]);
        let reply = check(FACT, answer.as_bytes(), &mut assignment, &mut levels);
        (reply, assignment, levels)
    }

    /// Of a text and literals; and the variables with value 1.
    fn shown(text: &str, literals: &str) -> (Reply, Vec<usize>) {
        let (mut assignment, mut levels) = ([0; 99], [0; 9]);
        let answer = format!("s SATISFIABLE\nv {literals}0\n");
        let reply = check(
            text.as_bytes(),
            answer.as_bytes(),
            &mut assignment,
            &mut levels,
        );
        let ones = (1..).zip(assignment).filter(|(_, value)| *value == 1);
        (reply, ones.map(|(variable, _)| variable).collect())
    }

    #[test]
    fn the_fact() {
        let accepted = (Ok((1, 1, 0)), [1, 1, 1, 1, 0, 0, 1, 9], [1, 9]);
        assert_eq!(said("s SATISFIABLE\nv 1 2 3 4 -5 -6 7 0\n"), accepted);
        assert_eq!(
            said("c\ns SATISFIABLE\nc x\nv 7 -6\nv\nc\nv 1 2 3 4 -5 0\nc end\n"),
            accepted
        );
    }

    #[test]
    fn left_out() {
        let accepted = |assumed| (Ok((1, 1, assumed)), [1, 1, 1, 1, 0, 0, 1, 9], [1, 9]);
        assert_eq!(said("s SATISFIABLE\nv 1 2 3 4 -6 7 0\n"), accepted(1));
        assert_eq!(said("s SATISFIABLE\nv 1 2 3 4 -5 7 0\n"), accepted(1));
        assert_eq!(said("s SATISFIABLE\nv 7 4\nv 3 2 1\nv 0\n"), accepted(2));

        assert_eq!(shown("(atoms 0)\n", ""), (Ok((0, 0, 0)), vec![]));
        // Of a false atom, the lowest bit of next is true.
        assert_eq!(shown("(atoms 1)\n", "4 "), (Ok((0, 0, 4)), vec![4]));
        assert_eq!(shown("(atoms 1)\n", "-1 4 "), (Ok((0, 0, 3)), vec![4]));
        assert_eq!(shown("(atoms 1)\n", "-1 4 -5 -2 -3 ").0, Ok((0, 0, 0)));
        let ring = "(atoms 2)\n(rule 1 (2) ())\n(rule 2 (1) ())\n";
        assert_eq!(shown(ring, "13 11 "), (Ok((0, 0, 20)), vec![11, 13]));
        let choice = "(atoms 2)\n(rule 1 () (2))\n(rule 2 () (1))\n";
        assert_eq!(
            shown(choice, "1 3 5 7 12 13 "),
            (Ok((1, 1, 8)), vec![1, 3, 5, 7, 12, 13])
        );
        assert_eq!(
            shown(choice, "2 4 6 9 11 14 -1 "),
            (Ok((1, 1, 7)), vec![2, 4, 6, 9, 11, 14])
        );
    }

    #[test]
    fn left_out_and_refused() {
        let fact = "(atoms 1)\n(rule 1 () ())\n";
        let refused = |text, literals, number, spot| {
            assert_eq!(shown(text, literals), (Err((number, spot)), vec![]));
        };
        // all left out
        refused(fact, "", 16, 1);
        refused("(atoms 1)\n", "", 16, 5);
        refused("(atoms 1)\n(rule 1 () (1))\n", "", 16, 2);
        refused("(atoms 2)\n(rule 1 (2) ())\n(rule 2 (1) ())\n", "", 16, 14);
        // one that is true in the model left out
        refused(fact, "2 3 4 -5 -6 7 ", 16, 2);
        refused(fact, "1 3 4 -5 -6 7 ", 16, 1);
        refused(fact, "1 2 4 -5 -6 7 ", 16, 13);
        refused(fact, "1 2 3 -5 -6 7 ", 16, 7);
        refused(fact, "1 2 3 4 -5 -6 ", 16, 11);
        // others left out
        refused(fact, "1 2 3 4 -5 -5 ", 14, 27);
        refused(fact, "1 8 ", 13, 18);
        refused("(atoms 0)\n", "-1 ", 13, 16);
    }

    #[test]
    fn refused() {
        let kept = |answer: &str| {
            let (reply, assignment, levels) = said(answer);
            assert_eq!((assignment, levels), ([9; 8], [9; 2]));
            reply.unwrap_err()
        };
        assert_eq!(kept(""), (11, 0));
        assert_eq!(kept("c"), (11, 1));
        assert_eq!(kept("s SATISFIABLE\n"), (11, 14));
        assert_eq!(kept("s SATISFIABLE\nv 1 -0\n"), (11, 19));
        assert_eq!(kept("s SATISFIABLE\nv 1 2 3 4 7\n"), (11, 26));
        assert_eq!(kept("s SATISFIABLE\r\n"), (11, 13));
        assert_eq!(kept("s UNSAT\n"), (11, 7));
        assert_eq!(kept("s UNKNOWN"), (11, 9));
        assert_eq!(kept("s UNKNOWN\nv x"), (12, 0));
        let zeroed = |answer: &str| {
            let (reply, assignment, levels) = said(answer);
            assert_eq!((assignment, levels), ([0, 0, 0, 0, 0, 0, 0, 9], [9; 2]));
            reply.unwrap_err()
        };
        assert_eq!(zeroed("s SATISFIABLE\nv 1 -8 0\n"), (13, 18));
        assert_eq!(zeroed("s SATISFIABLE\nv 1 -1 0\n"), (14, 18));
        assert_eq!(zeroed("s SATISFIABLE\nv 1 2 0\n"), (16, 7));
        assert_eq!(zeroed("s SATISFIABLE\nv -1 2 3 4 -5 -6 7 0\n"), (16, 2));
    }
}
