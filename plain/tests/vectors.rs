//! Replies compared with the shared vectors, in the folder that QS_VECTORS names. Skipped if it is not set.

use plain::calls::{bytes, hex, reply, Call};
use plain::{check, fill_out, line, read};
use std::path::PathBuf;

fn calls(name: &str) -> Option<Vec<(Vec<String>, Vec<String>)>> {
    let Some(folder) = std::env::var_os("QS_VECTORS") else {
        eprintln!("QS_VECTORS is not set: {name} skipped");
        return None;
    };
    let words = |part: &str| part.split(' ').map(str::to_string).collect::<Vec<_>>();
    let file = std::fs::read_to_string(PathBuf::from(folder).join(name)).unwrap();
    let calls: Vec<_> = file
        .lines()
        .map(|call| {
            let (call, reply) = call.split_once(" => ").unwrap();
            (words(call), words(reply))
        })
        .collect();
    assert!(!calls.is_empty());
    eprintln!("{name}: {} calls", calls.len());
    Some(calls)
}

#[test]
fn read_vectors() {
    for (i, (call, reply)) in calls("read.txt").unwrap_or_default().iter().enumerate() {
        let [text] = &call[..] else {
            panic!("call {}", i + 1)
        };
        let said = match read(&bytes(text)) {
            Ok((variables, clauses)) => format!("ok {variables} {clauses}"),
            Err((number, spot)) => format!("refused {number} {spot}"),
        };
        assert_eq!(said, reply.join(" "), "call {}", i + 1);
    }
}

#[test]
fn line_vectors() {
    for (i, (call, reply)) in calls("line.txt").unwrap_or_default().iter().enumerate() {
        let [text, j, place, buffer] = &call[..] else {
            panic!("call {}", i + 1)
        };
        let mut buffer = bytes(buffer);
        let said = match line(
            &bytes(text),
            j.parse().unwrap(),
            place.parse().unwrap(),
            &mut buffer,
        ) {
            Ok(length) => format!("ok {length}"),
            Err((number, spot)) => format!("refused {number} {spot}"),
        };
        assert_eq!(
            format!("{said} {}", hex(&buffer)),
            reply.join(" "),
            "call {}",
            i + 1
        );
    }
}

/// Compares the replies to calls on two inputs and two lent buffers.
fn replies<Numbers: Into<[usize; N]>, const N: usize>(name: &str, call: Call<Numbers>) {
    for (i, (line, said)) in calls(name).unwrap_or_default().iter().enumerate() {
        assert_eq!(
            reply(call, &line.join(" ")),
            said.join(" "),
            "call {}",
            i + 1
        );
    }
}

#[test]
fn check_vectors() {
    replies("q-3/check.txt", check);
}

#[test]
fn fill_vectors() {
    replies("fill.txt", fill_out);
}
