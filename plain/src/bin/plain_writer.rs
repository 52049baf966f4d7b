//! Reads a program text from standard input and prints its clause file, or the refusal.

use plain::text::MAX_BYTES;
use plain::{write_all, Refusal};
use std::io::{stdin, stdout, ErrorKind, Read, Write};

fn main() {
    let output = match translate() {
        Ok(file) => file,
        Err((number, spot)) => format!("(refused {number} {spot})\n").into_bytes(),
    };
    // An output that cannot be written has nowhere to be reported.
    let _ = stdout().lock().write_all(&output);
}

fn translate() -> Result<Vec<u8>, Refusal> {
    let (text, length) = input();
    if length > MAX_BYTES {
        return Err((1, length));
    }
    write_all(&text)
}

/// Standard input's bytes and their number. Past the largest text the bytes are only counted.
/// A read error ends the input there.
fn input() -> (Vec<u8>, usize) {
    let mut input = stdin().lock();
    let mut text = Vec::new();
    let mut length = 0;
    let mut part = [0; 16_384];
    loop {
        match input.read(&mut part) {
            Ok(0) => return (text, length),
            Ok(count) => {
                length += count;
                if length <= MAX_BYTES {
                    text.extend_from_slice(&part[..count]);
                }
            }
            Err(error) if error.kind() == ErrorKind::Interrupted => {}
            Err(_) => return (text, length),
        }
    }
}
