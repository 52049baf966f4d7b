//! Every call of the proved library, and of the benchmark's tuned implementation, compared with the plain one: number, spot, each value and
//! each byte of each buffer, on many inputs from fixed seeds.

mod answers;
mod guarded;
mod levels;
mod models;
mod random;
mod raw;
mod sides;
mod tally;
mod texts;
#[path = "../../benches/compare/tuned/mod.rs"]
mod tuned;

use models::{bounds, least, literals};
use plain::{read_program, Program};
use quadrensolo::MAX_LINE;
use random::Random;
use tally::Tally;

const LARGE: usize = usize::MAX;

/// Runs the cases with seeds 0 and up; QS_TIMES times as many if that is set.
fn cases(tally: &mut Tally, count: u64, mut case: impl FnMut(&mut Random, &mut Tally)) {
    let times = std::env::var("QS_TIMES").map_or(1, |times| times.parse().expect("a number"));
    for seed in 0..count * times {
        tally.seed = seed;
        case(&mut Random(seed), tally);
    }
}

#[test]
fn read() {
    let mut tally = Tally::new("read");
    cases(&mut tally, 60_000, |random, tally| {
        let text = texts::any(random);
        tally.compare(random, [], &[&text], &[], |side, []| (side.read)(&text));
    });
    tally.end(1..=7);
}

#[test]
fn line() {
    let mut tally = Tally::new("line");
    cases(&mut tally, 8_000, |random, tally| {
        let sound = texts::sound(random);
        let text = maybe_damaged(random, &sound);
        let clauses = plain::read(&text).map_or(0, |(_, clauses)| clauses);
        for _ in 0..6 {
            let j = index(random, clauses);
            let length = plain::line(&text, j, 0, &mut [0; MAX_LINE]).unwrap_or(5);
            let place = random.pick(&[0, 0, 1, 2, 29]);
            let room = match random.below(6) {
                0 => place + length - 1,
                1 | 2 => place + length,
                3 => place + length + 1,
                4 => place + length + random.below(4_000),
                _ => random.below(place + length),
            };
            let place = match random.below(12) {
                0 => random.pick(&[
                    LARGE,
                    LARGE - 1,
                    LARGE - length,
                    LARGE - length + 1,
                    1 << 63,
                    room,
                    room + 1,
                ]),
                _ => place,
            };
            let numbers = [j, place];
            tally.compare(random, [room], &[&text], &numbers, |side, [buf]| {
                (side.line)(&text, j, place, buf)
            });
        }
    });
    tally.end(1..=9);
}

#[test]
fn run() {
    let mut tally = Tally::new("run");
    cases(&mut tally, 6_000, |random, tally| {
        let sound = match random.below(20) {
            0 => texts::wide(random),
            _ => texts::sound(random),
        };
        let text = maybe_damaged(random, &sound);
        let clauses = plain::read(&text).map_or(0, |(_, clauses)| clauses);
        let file = plain::write_all(&text).unwrap_or_default();
        let starts: Vec<usize> = line_starts(&file);
        for _ in 0..6 {
            let j = index(random, clauses);
            let rest = starts.get(j).map_or(0, |start| file.len() - start);
            // to the end of a line from j on
            let some = match starts.get(j..) {
                Some(after) if after.len() > 1 => {
                    after[1 + random.below((after.len() - 1).min(50))] - after[0]
                }
                _ => 9,
            };
            let room = match random.below(8) {
                0 => random.below(40),
                1 => some - 1,
                2 | 3 => some,
                4 => some + 1 + random.below(3),
                5 => random.pick(&[rest.saturating_sub(1), rest, rest + 1, rest + MAX_LINE]),
                6 => random.below(rest + 100),
                _ => random.pick(&[MAX_LINE - 1, MAX_LINE, MAX_LINE + 1, 2 * MAX_LINE]),
            };
            tally.compare(random, [room], &[&text], &[j], |side, [buf]| {
                (side.run)(&text, j, buf)
            });
        }
    });
    tally.end(1..=9);
}

#[test]
fn check() {
    let mut tally = Tally::new("check");
    cases(&mut tally, 6_000, |random, tally| {
        let sound = texts::sound(random);
        let (variables, atoms, set) = proposed(random, &sound);
        let (mut values, mut levels) = (vec![0; variables], vec![0; atoms]);
        if plain::fill_out(&sound, &set, &mut values, &mut levels).is_err() {
            // no stable model found
            values = random
                .bytes(variables)
                .iter()
                .map(|byte| byte & 1)
                .collect();
        } else if atoms > 0 && random.one_in(4) {
            // another level, and all that goes with it
            let level = &mut levels[random.below(atoms)];
            *level = match random.below(2) {
                0 => *level + 1,
                _ => random.below(atoms + 1) as u8,
            };
            let mut program = Program::EMPTY;
            read_program(&sound, &mut program).expect("a sound text");
            values = levels::values(&program, &set, &levels);
            assert_eq!(values.len(), variables);
        }
        for _ in 0..6 {
            let answer = answers::answer(random, &values);
            let text = maybe_damaged(random, &sound);
            let lengths = [room(random, variables), room(random, atoms)];
            tally.compare(
                random,
                lengths,
                &[&text, &answer],
                &[],
                |side, [assignment, levels]| (side.check)(&text, &answer, assignment, levels),
            );
        }
    });
    assert_ne!(tally.assumed, 0);
    tally.end((1..=8).chain(10..=14).chain([16]));
}

/// The values of a model, or all false where none was found, with one variable flipped: each of up to 2,000, one after the other. Which clause is false first?
#[test]
fn false_clauses() {
    let mut tally = Tally::new("false clauses");
    cases(&mut tally, 60, |random, tally| {
        let text = texts::sound(random);
        let (variables, atoms, set) = proposed(random, &text);
        let (mut values, mut levels) = (vec![0; variables], vec![0; atoms]);
        let _ = plain::fill_out(&text, &set, &mut values, &mut levels);
        let mut checked = |values: &[u8]| {
            let answer = format!("s SATISFIABLE\nv {} 0\n", literals(values).join(" "));
            let inputs: [&[u8]; 2] = [&text, answer.as_bytes()];
            tally.compare(
                random,
                [variables, atoms],
                &inputs,
                &[],
                |side, [assignment, levels]| {
                    (side.check)(&text, answer.as_bytes(), assignment, levels)
                },
            );
        };
        if variables > 0 {
            checked(&values);
        }
        for v in 0..variables.min(2_000) {
            values[v] ^= 1;
            checked(&values);
            values[v] ^= 1;
        }
    });
    tally.end([16]);
}

#[test]
fn fill_out() {
    let mut tally = Tally::new("fill_out");
    cases(&mut tally, 12_000, |random, tally| {
        let sound = texts::sound(random);
        let (variables, atoms, stable) = proposed(random, &sound);
        for _ in 0..4 {
            let mut set = stable.clone();
            match random.below(6) {
                0 => set = random.bytes(atoms).iter().map(|byte| byte & 1).collect(),
                1 if atoms > 0 => set[random.below(atoms)] ^= 1,
                2 if atoms > 0 => set[random.below(atoms)] = random.pick(&[2, 3, 128, 255]),
                3 => set.resize(
                    random.pick(&[0, atoms.saturating_sub(1), atoms + 1, 2 * atoms + 1]),
                    random.pick(&[0, 1, 2]),
                ),
                _ => {}
            }
            let text = maybe_damaged(random, &sound);
            let lengths = [room(random, variables), room(random, atoms)];
            tally.compare(
                random,
                lengths,
                &[&text, &set],
                &[],
                |side, [assignment, levels]| (side.fill_out)(&text, &set, assignment, levels),
            );
        }
    });
    tally.end((1..=8).chain(17..=18));
}

#[test]
fn clause_file() {
    let mut random = Random(1);
    for _ in 0..300 {
        let text = texts::any(&mut random);
        let file = quadrensolo::clause_file(&text)
            .map_err(|refusal| (refusal.number as u32, refusal.spot as usize));
        assert!(
            file == plain::write_all(&text),
            "{}",
            plain::calls::hex(&text)
        );
    }
}

/// A line's number: around 0 and C, very large, or anywhere.
fn index(random: &mut Random, clauses: usize) -> usize {
    match random.below(8) {
        0 => random.below(3),
        1 => (clauses + 2).saturating_sub(random.below(5)),
        2 if random.one_in(3) => {
            random.pick(&[LARGE, LARGE - 1, 1 << 63, 1 << 32, clauses + (1 << 32)])
        }
        _ => random.below(clauses + 1),
    }
}

/// Where each line starts, and the end.
fn line_starts(file: &[u8]) -> Vec<usize> {
    let ends = (1..)
        .zip(file)
        .filter(|(_, &byte)| byte == b'\n')
        .map(|(end, _)| end);
    std::iter::once(0).chain(ends).collect()
}

/// V and n of an accepted text, and a stable model if one is found.
fn proposed(random: &mut Random, text: &[u8]) -> (usize, usize, Vec<u8>) {
    let mut program = Program::EMPTY;
    read_program(text, &mut program).expect("a sound text");
    let (variables, _) = plain::read(text).expect("a sound text");
    let (lower, upper) = bounds(&program);
    let mut set = lower.clone();
    for _ in 0..20 {
        if least(&program, &set) == set {
            break;
        }
        let open = lower.iter().zip(&upper);
        set = open
            .map(|(&l, &u)| if l == u { l } else { random.below(2) as u8 })
            .collect();
    }
    (variables, program.atoms, set)
}

/// Mostly the text itself.
fn maybe_damaged(random: &mut Random, sound: &[u8]) -> Vec<u8> {
    match random.below(100) {
        0..2 => texts::limit(random),
        2..12 => {
            let mut text = sound.to_vec();
            texts::damage(random, &mut text);
            text
        }
        _ => sound.to_vec(),
    }
}

/// A buffer's length: enough, sometimes short.
fn room(random: &mut Random, need: usize) -> usize {
    match random.below(20) {
        0 => need.saturating_sub(1 + random.below(3)),
        1 => random.below(need + 1),
        2..=9 => need,
        _ => need + random.below(20),
    }
}
