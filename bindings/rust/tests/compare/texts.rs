//! Program texts: sound ones, ones at the limits, and damaged ones.

use crate::random::Random;
use std::collections::BTreeSet;
use std::fmt::Write;

/// Numbers of atoms next to a change of the width.
const BORDERS: [usize; 15] = [0, 1, 2, 3, 6, 7, 14, 15, 30, 31, 62, 63, 64, 125, 126];

/// Numbers that stand in for others.
const NUMBERS: [&str; 14] = [
    "0",
    "1",
    "2",
    "00",
    "01",
    "126",
    "127",
    "128",
    "255",
    "256",
    "65537",
    "4294967297",
    "18446744073709551617",
    "340282366920938463463374607431768211457",
];

/// A text with so many atoms, rules and body atoms; the latter lie anywhere, on one side only if `positive`.
fn text(random: &mut Random, atoms: usize, rules: usize, bodies: usize, positive: bool) -> Vec<u8> {
    let mut lists = vec![[BTreeSet::new(), BTreeSet::new()]; rules];
    let mut left = bodies;
    while left > 0 {
        let side = if positive { 0 } else { random.below(2) };
        let rule = random.below(rules);
        left -= lists[rule][side].insert(1 + random.below(atoms)) as usize;
    }
    let mut text = format!("(atoms {atoms})\n");
    for [positive, negative] in &lists {
        let head = 1 + random.below(atoms);
        let list = |atoms: &BTreeSet<usize>| {
            atoms
                .iter()
                .map(usize::to_string)
                .collect::<Vec<_>>()
                .join(" ")
        };
        writeln!(
            text,
            "(rule {head} ({}) ({}))",
            list(positive),
            list(negative)
        )
        .expect("a String");
    }
    text.into_bytes()
}

/// An accepted text of a few rules; one in 50 is much larger.
pub fn sound(random: &mut Random) -> Vec<u8> {
    if random.one_in(50) {
        return large(random);
    }
    let atoms = match random.below(4) {
        0 => random.pick(&BORDERS),
        _ => 1 + random.below(8),
    };
    if atoms == 0 {
        return b"(atoms 0)\n".to_vec();
    }
    let rules = random.below(2 * atoms.min(20) + 2);
    let bodies = if rules == 0 {
        0
    } else {
        random.below(1 + (rules * atoms).min(3 * rules) * 2 / 3)
    };
    let positive = random.one_in(2);
    text(random, atoms, rules, bodies, positive)
}

/// An accepted text with many rules, often with 500 rules or 500 body atoms.
pub fn large(random: &mut Random) -> Vec<u8> {
    let atoms = random.pick(&[5, 30, 62, 63, 126, 126]);
    let rules = random.pick(&[300, 499, 500, 500]);
    let bodies = random.pick(&[300, 499, 500, 500]);
    let positive = random.one_in(2);
    text(random, atoms, rules, bodies, positive)
}

/// An accepted text of a few rules with long bodies.
pub fn wide(random: &mut Random) -> Vec<u8> {
    let (atoms, rules) = (1 + random.below(126), 1 + random.below(4));
    let positive = random.one_in(2);
    let places = if positive { atoms } else { 2 * atoms } * rules;
    let bodies = random.below(places.min(500) * 3 / 4 + 1);
    text(random, atoms, rules, bodies, positive)
}

/// A text at a limit or just past it.
pub fn limit(random: &mut Random) -> Vec<u8> {
    let positive = random.one_in(2);
    match random.below(6) {
        0 => {
            let atoms = random.pick(&[125, 126, 127, 128, 200]);
            let rules = random.below(5) + 1;
            text(random, atoms, rules, rules, positive)
        }
        1 => {
            let rules = random.pick(&[500, 501, 502, 520]);
            let bodies = random.below(500);
            text(random, 9, rules, bodies, positive)
        }
        2 => {
            let bodies = random.pick(&[500, 501, 502, 600]);
            let rules = 100 + random.below(402);
            text(random, 40, rules, bodies, positive)
        }
        // One long number fills the text.
        3 => {
            let length = random.pick(&[65_535, 65_536, 65_537, 65_538]);
            let start = random.pick(&[
                "(atoms ",
                "(atoms 3)\n(rule ",
                "(atoms 3)\n(rule 1 (",
                "(atoms 3)\n(rule 1 () (",
            ]);
            let end = random.pick(&["", ")\n", " () ())\n", ") ())\n", "))\n"]);
            let digits = "7".repeat(length - start.len() - end.len());
            format!("{start}{digits}{end}").into_bytes()
        }
        // Rules fill the text, the last one cut or not.
        4 => {
            let mut text = b"(atoms 9)\n".to_vec();
            while text.len() < 65_600 {
                text.extend(b"(rule 1 (2 3) (4))\n");
            }
            text.truncate(random.pick(&[65_535, 65_536, 65_537, 65_550, 65_600, 65_524]));
            text
        }
        _ => {
            let length = random.pick(&[0, 1, 65_536, 65_537, 70_000]);
            random.bytes(length)
        }
    }
}

/// Any of these, damaged in one or two places, or not.
pub fn any(random: &mut Random) -> Vec<u8> {
    let mut text = match random.below(40) {
        0 => limit(random),
        _ => sound(random),
    };
    for _ in 0..random.pick(&[0, 1, 1, 2]) {
        damage(random, &mut text);
    }
    text
}

/// Changes a byte, a number, a line or the end.
pub fn damage(random: &mut Random, text: &mut Vec<u8>) {
    if text.is_empty() {
        return;
    }
    let at = random.below(text.len());
    match random.below(9) {
        0 => text[at] ^= 1 << random.below(8),
        1 => text[at] = random.pick(b"()0123456789 \n\r-acdelmorstuv"),
        2 => text.insert(at, random.pick(b"()0123456789 \n\r-acdelmorstuv")),
        3 => _ = text.remove(at),
        4 => text.truncate(at),
        5 => text.push(random.pick(b"()0 \n")),
        6 => {
            // a line once more, or away
            let lines = text.split_inclusive(|&byte| byte == b'\n');
            let mut lines: Vec<Vec<u8>> = lines.map(<[u8]>::to_vec).collect();
            let line = random.below(lines.len());
            if random.one_in(2) {
                lines.insert(random.below(lines.len() + 1), lines[line].clone());
            } else {
                lines.remove(line);
            }
            *text = lines.concat();
        }
        _ => number(random, text, at),
    }
}

/// Another number in place of the next one from `at` on, or that of its neighbour before.
fn number(random: &mut Random, text: &mut Vec<u8>, at: usize) {
    let digit = |byte: &u8| byte.is_ascii_digit();
    let Some(start) = text[at..].iter().position(digit).map(|skip| at + skip) else {
        return;
    };
    let end = text[start..]
        .iter()
        .position(|byte| !digit(byte))
        .map_or(text.len(), |skip| start + skip);
    // the digits before the byte before, if any
    let from = text[..start.saturating_sub(1)]
        .iter()
        .rposition(|byte| !digit(byte))
        .map_or(0, |at| at + 1);
    let new = match random.below(4) {
        0 => (1 + random.below(130)).to_string().into_bytes(),
        1 | 2 if from + 1 < start => text[from..start - 1].to_vec(),
        _ => random.pick(&NUMBERS).as_bytes().to_vec(),
    };
    text.splice(start..end, new);
}
