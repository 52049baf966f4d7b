//! Solver answers: printed from values, whole, with variables left out, or damaged.

use crate::models::literals;
use crate::random::Random;
use crate::texts::damage;

/// Literals that no form has, and ones that no program has.
const ODD: [&str; 22] = [
    "-0",
    "00",
    "01",
    "-01",
    "--1",
    "+1",
    "-",
    "",
    "1x",
    "x",
    "0",
    "9891",
    "-9891",
    "65537",
    "100000",
    "-100001",
    "4294967295",
    "-4294967297",
    "2147483648",
    "-2147483649",
    "18446744073709551617",
    "-340282366920938463463374607431768211457",
];

/// An answer that shows the values, all of them or some, with a few changes or none.
pub fn answer(random: &mut Random, values: &[u8]) -> Vec<u8> {
    let mut literals = literals(values);
    if random.one_in(3) {
        random.shuffle(&mut literals);
    }
    if random.one_in(2) {
        leave_out(random, &mut literals);
    }
    for _ in 0..random.pick(&[0, 0, 1, 1, 1, 2]) {
        change(random, &mut literals, values.len());
    }
    let mut answer = printed(random, &literals);
    if random.one_in(3) {
        damage(random, &mut answer);
    }
    if random.one_in(40) {
        pad(random, &mut answer);
    }
    answer
}

/// Leaves out negative literals, positive ones, a few of both, or all.
fn leave_out(random: &mut Random, literals: &mut Vec<String>) {
    let negative = |literal: &str| literal.starts_with('-');
    match random.below(12) {
        0..4 => literals.retain(|literal| !negative(literal)),
        4..6 => literals.retain(|literal| !negative(literal) || random.one_in(2)),
        6 => literals.retain(|literal| !negative(literal) || !random.one_in(20)),
        7 => literals.retain(|literal| negative(literal)),
        8 => literals.retain(|literal| negative(literal) || !random.one_in(20)),
        9 => literals.clear(),
        _ => {
            for _ in 0..random.pick(&[1, 1, 2, 3]) {
                if !literals.is_empty() {
                    literals.remove(random.below(literals.len()));
                }
            }
        }
    }
}

fn change(random: &mut Random, literals: &mut Vec<String>, variables: usize) {
    if literals.is_empty() {
        return;
    }
    let at = random.below(literals.len());
    let to = random.below(literals.len() + 1);
    match random.below(6) {
        0 | 1 => literals[at] = negated(&literals[at]),
        2 => _ = literals.remove(at),
        3 => literals.insert(to, literals[at].clone()),
        4 => literals.insert(to, negated(&literals[at])),
        _ => {
            let new = match random.below(3) {
                0 => (variables + 1).to_string(),
                _ => random.pick(&ODD).to_string(),
            };
            literals.insert(to, new);
        }
    }
}

fn negated(literal: &str) -> String {
    match literal.strip_prefix('-') {
        Some(positive) => positive.to_string(),
        None => format!("-{literal}"),
    }
}

/// In v lines of any length, with c lines between them at times, a status at the start, and an end.
fn printed(random: &mut Random, literals: &[String]) -> Vec<u8> {
    let talkative = random.one_in(3);
    let comment = |random: &mut Random, answer: &mut Vec<u8>| {
        if talkative && random.one_in(3) {
            answer.extend(
                random
                    .pick(&["c\n", "c x\n", "cnf 1 2\n", "c v 1 0\n", "c\r\n"])
                    .bytes(),
            );
        }
    };
    let mut answer = Vec::new();
    comment(random, &mut answer);
    let status = match random.below(20) {
        0 => random.pick(&[
            "s UNSATISFIABLE\n",
            "s UNKNOWN\n",
            "s UNKNOWN",
            "s SATISFIABLE",
            "s UN\n",
            "",
            "s S\n",
            "S\n",
            "s UNSATISFIABLE",
        ]),
        _ => "s SATISFIABLE\n",
    };
    answer.extend(status.bytes());
    comment(random, &mut answer);
    answer.push(b'v');
    for literal in literals {
        if random.one_in(20) {
            answer.push(b'\n');
            comment(random, &mut answer);
            answer.push(b'v');
        }
        answer.push(b' ');
        answer.extend(literal.bytes());
    }
    let end = match random.below(15) {
        0 => random.pick(&[
            "",
            "\n",
            " 0",
            " 0 \n",
            " 0\nv\n",
            " 0\nv 0\n",
            " 0\n\n",
            "\nv\nv 0\n",
            " 0\nc",
            " -0\n",
            " 0\ns SATISFIABLE\n",
            " 0\r\n",
        ]),
        _ => " 0\n",
    };
    answer.extend(end.bytes());
    comment(random, &mut answer);
    answer
}

/// To the longest length, or one past it, by a c line at the start or the end.
fn pad(random: &mut Random, answer: &mut Vec<u8>) {
    let length = random.pick(&[65_535, 65_536, 65_536, 65_537]);
    if answer.len() + 2 > length {
        return;
    }
    let mut line = vec![b'c'; length - answer.len() - 1];
    line.push(b'\n');
    let at = if random.one_in(2) { 0 } else { answer.len() };
    answer.splice(at..at, line);
}
