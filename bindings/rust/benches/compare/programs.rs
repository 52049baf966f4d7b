//! The programs that are timed, each with a stable model.

use crate::models::{bounds, literals};
use plain::full::full_program;
use plain::{fill_out, read, read_program, Program};

/// A program with one of its stable models and what the calls give for it.
pub struct Case {
    pub name: &'static str,
    pub text: Vec<u8>,
    pub set: Vec<u8>,
    pub variables: usize,
    pub clauses: usize,
    /// The answer that shows the model.
    pub answer: Vec<u8>,
    /// Its positive literals alone.
    pub positive: Vec<u8>,
    /// The answer with the literal of the last rule's s flipped, if there is a rule.
    pub refused: Option<Vec<u8>>,
}

pub fn cases() -> Vec<Case> {
    vec![
        case("no atoms", "(atoms 0)\n".into()),
        case("fact", "(atoms 1)\n(rule 1 () ())\n".into()),
        case(
            "two rules",
            "(atoms 2)\n(rule 1 () ())\n(rule 2 (1) ())\n".into(),
        ),
        case("chain of 126", chain()),
        case("ring of 14", ring()),
        case("full, mixed", full_program()),
        case("full, positive", full_positive()),
    ]
}

fn case(name: &'static str, text: String) -> Case {
    let text = text.into_bytes();
    let mut program = Program::EMPTY;
    read_program(&text, &mut program).expect("an accepted program");
    let (variables, clauses) = read(&text).expect("an accepted program");
    // The only stable model, where the bounds meet.
    let (set, upper) = bounds(&program);
    assert_eq!(set, upper, "{name}: atoms left open");
    let (mut values, mut levels) = (vec![0; variables], vec![0; program.atoms]);
    fill_out(&text, &set, &mut values, &mut levels).expect("a stable model");
    let whole = literals(&values);
    let positive = whole.iter().filter(|literal| !literal.starts_with('-'));
    let (answer, positive) = (answer(&whole), self::answer(positive));
    let refused = program.rules().last().map(|_| {
        values[program.atoms + 2 * program.rules().len() - 1] ^= 1;
        self::answer(&literals(&values))
    });
    Case {
        name,
        text,
        set,
        variables,
        clauses,
        answer,
        positive,
        refused,
    }
}

/// A text that its first rule's head refuses (row 4), and one that its atoms line refuses (row 3), with all of its other bytes.
pub fn refused_at_front(text: &[u8]) -> [(u64, Vec<u8>); 2] {
    let text = std::str::from_utf8(text).expect("ASCII");
    let (line, rules) = text.split_once('\n').expect("an atoms line");
    let rules = rules.strip_prefix("(rule ").expect("a rule");
    let (head, rest) = rules.split_once(' ').expect("a head");
    [
        (4, format!("{line}\n(rule 127 {rest}").into_bytes()),
        (3, format!("(atoms 127)\n(rule {head} {rest}").into_bytes()),
    ]
}

/// Literals as a solver prints them, in lines of at most 78 bytes.
fn answer<'a>(literals: impl IntoIterator<Item = &'a String>) -> Vec<u8> {
    let mut answer = String::from("s SATISFIABLE\n");
    let mut line = String::from("v");
    for literal in literals {
        if line.len() + 1 + literal.len() > 78 {
            answer += &line;
            answer += "\n";
            line = String::from("v");
        }
        line += " ";
        line += literal;
    }
    answer += &line;
    answer += " 0\n";
    answer.into_bytes()
}

/// 126 atoms in a chain that returns to 1, with 1 a fact.
fn chain() -> String {
    let mut text = String::from("(atoms 126)\n(rule 1 () ())\n(rule 1 (126) ())\n");
    for a in 2..=126 {
        text += &format!("(rule {a} ({}) ())\n", a - 1);
    }
    text
}

/// 14 atoms, each from the one before, the first from the last: nothing is founded.
fn ring() -> String {
    let mut text = String::from("(atoms 14)\n(rule 1 (14) ())\n");
    for a in 2..=14 {
        text += &format!("(rule {a} ({}) ())\n", a - 1);
    }
    text
}

/// 126 atoms, 500 rules, 500 body atoms, all positive. 1 to 50 and 51 to 100 are chains with a fact at their start, 101 to 126 a ring.
/// The other rules take their bodies from the head on upwards, so that many levels stay high.
fn full_positive() -> String {
    let mut text = String::from("(atoms 126)\n");
    let mut rule = |head: u64, body: &str| text += &format!("(rule {head} ({body}) ())\n");
    for a in 1..=126 {
        match a {
            1 | 51 => rule(a, ""),
            101 => rule(a, "126"),
            _ => rule(a, &(a - 1).to_string()),
        }
    }
    let mut seed = 1u64;
    let mut below = |bound: u64| {
        seed = seed
            .wrapping_mul(6_364_136_223_846_793_005)
            .wrapping_add(1_442_695_040_888_963_407);
        (seed >> 33) % bound
    };
    for r in 0..374 {
        let head = 1 + below(124);
        let first = head + below(126 - head);
        let second = first + 1 + below(126 - first);
        match r {
            0..36 => rule([1, 51][r % 2], ""),
            36..74 => rule(head, &format!("{first} {second}")),
            _ => rule(head, &first.to_string()),
        }
    }
    text
}
