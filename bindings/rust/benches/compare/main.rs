//! The proved library, the plain implementation and the tuned one side by side: `cargo bench`. Words after `--` pick the rows that have
//! them all in program and call. Replies and buffers are compared before a row is timed. The output is a list and a Markdown table.

#[path = "../../tests/compare/models.rs"]
mod models;
mod programs;
#[path = "../../tests/compare/sides.rs"]
mod sides;
mod timing;
mod tuned;

use programs::{cases, refused_at_front, Case};
use quadrensolo::sys::Reply;
use sides::{Side, PLAIN, SAFE, TUNED};
use std::hint::black_box;
use timing::{compare, Times};

/// Proved, plain, tuned.
const SIDES: [Side; 3] = [SAFE, PLAIN, TUNED];

fn main() {
    let words = std::env::args()
        .skip(1)
        .filter(|word| !word.starts_with('-'));
    let words: Vec<String> = words.collect();
    let cases = cases();
    for case in &cases {
        println!("- {}: {}", case.name, described(case));
    }
    println!("\nNanoseconds for a call: best, and median in brackets. MB/s by the best.\n");
    println!("| Program | Call | Bytes | Proved ns | Plain ns | Tuned ns | Proved MB/s | Plain MB/s | Tuned MB/s | Proved / plain | Proved / tuned |");
    println!("|---|---|---:|---:|---:|---:|---:|---:|---:|---:|---:|");
    for case in &cases {
        rows(case, &words);
    }
}

/// Sizes, the model, and which clause the refused answer makes false.
fn described(case: &Case) -> String {
    let (mut values, mut levels) = (vec![0; case.variables], [0; 126]);
    let model = (SAFE.fill_out)(&case.text, &case.set, &mut values, &mut levels);
    assert_eq!(model.number, 0);
    let mut line = format!(
        "V {}, C {}; {} true atoms, highest level {}",
        case.variables, case.clauses, model.a, model.b
    );
    if let Some(answer) = &case.refused {
        let refusal = (SAFE.check)(&case.text, answer, &mut values, &mut levels);
        assert_eq!(refusal.number, 16);
        let clause = refusal.spot;
        line += &format!("; the first false clause of the refused answer is {clause}");
    }
    line
}

/// The buffers that calls write.
#[derive(Clone, PartialEq)]
struct Buffers {
    lines: Vec<u8>,
    assignment: Vec<u8>,
    levels: Vec<u8>,
}

/// A call on one of the sides, with its buffers.
type Call<'a> = &'a dyn Fn(&Side, &mut Buffers) -> Reply;

fn rows(case: &Case, words: &[String]) {
    let text = &case.text[..];
    let file = quadrensolo::clause_file(text).expect("an accepted program");
    let buffers = Buffers {
        lines: vec![7; file.len() + 2 * quadrensolo::MAX_LINE],
        assignment: vec![7; case.variables],
        levels: vec![7; 126],
    };
    let row = |call: &str, bytes: usize, reply: Call| {
        let has = |word: &String| case.name.contains(word) || call.contains(word);
        if words.iter().all(has) {
            let times = timed(&format!("{}: {call}", case.name), &buffers, reply);
            print_row(case.name, call, bytes, times);
        }
    };

    row("read", text.len(), &|side, _| (side.read)(text));
    // where much text follows
    if text.len() > 9_000 {
        for (number, text) in refused_at_front(text) {
            assert_eq!((SAFE.read)(&text).number, number);
            let call = format!("read, refused at its front by row {number}");
            row(&call, text.len(), &|side, _| (side.read)(&text));
        }
    }
    row(
        "run, all lines into one buffer",
        file.len(),
        &|side, buffers| (side.run)(text, 0, &mut buffers.lines),
    );
    let middle = (case.clauses > 0).then_some(case.clauses / 2);
    for (call, j) in [("line C / 2", middle), ("line C", Some(case.clauses))] {
        let Some(j) = j else { continue };
        row(call, 0, &|side, buffers| {
            (side.line)(text, j, 0, &mut buffers.lines)
        });
    }
    let positive = (case.positive != case.answer).then_some(&case.positive);
    for (call, answer) in [
        ("check, accepted", Some(&case.answer)),
        ("check, negative ones left out", positive),
        ("check, refused late", case.refused.as_ref()),
    ] {
        let Some(answer) = answer else { continue };
        row(call, answer.len(), &|side, buffers| {
            (side.check)(text, answer, &mut buffers.assignment, &mut buffers.levels)
        });
    }
    row("fill out", 0, &|side, buffers| {
        (side.fill_out)(
            text,
            &case.set,
            &mut buffers.assignment,
            &mut buffers.levels,
        )
    });
}

/// The times of the sides, after comparing what they reply and write.
fn timed(name: &str, buffers: &Buffers, reply: Call) -> [Times; 3] {
    let mut sides = SIDES.each_ref().map(|side| (side, buffers.clone()));
    let replies = sides.each_mut().map(|(side, buffers)| reply(side, buffers));
    for other in 1..SIDES.len() {
        assert_eq!(replies[0], replies[other], "{name}");
        let same = sides[0].1 == sides[other].1;
        assert!(same, "{name}: the buffers differ");
    }
    compare(
        sides
            .each_mut()
            .map(|(side, buffers)| || _ = black_box(reply(black_box(side), buffers))),
    )
}

/// Bytes 0 where they say nothing.
fn print_row(program: &str, call: &str, bytes: usize, times: [Times; 3]) {
    let time = |times: &Times| format!("{:.0} ({:.0})", times.best, times.median);
    let speed = |times: &Times| match bytes {
        0 => String::new(),
        _ => format!("{:.0}", bytes as f64 / times.best * 1e3),
    };
    let size = match bytes {
        0 => String::new(),
        _ => bytes.to_string(),
    };
    let [proved, plain, tuned] = &times;
    let times = times.each_ref().map(time).join(" | ");
    let speeds = [proved, plain, tuned].map(speed).join(" | ");
    let (plain, tuned) = (proved.best / plain.best, proved.best / tuned.best);
    println!("| {program} | {call} | {size} | {times} | {speeds} | {plain:.2} | {tuned:.2} |");
}
