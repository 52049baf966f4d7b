//! Calls of `check` and `fill_out` in text: four fields of bytes, and the reply with both buffers after it.

use crate::Refusal;
use std::io::{stdin, BufRead};

/// A call on two inputs and two lent buffers. Accepted, it returns several numbers.
pub type Call<Numbers> = fn(&[u8], &[u8], &mut [u8], &mut [u8]) -> Result<Numbers, Refusal>;

/// Prints the reply to each line of standard input.
pub fn print_replies<Numbers: Into<[usize; N]>, const N: usize>(call: Call<Numbers>) {
    for line in stdin().lock().lines() {
        println!("{}", reply(call, &line.expect("a line of text")));
    }
}

/// The reply to a line, and both buffers after the call.
pub fn reply<Numbers: Into<[usize; N]>, const N: usize>(call: Call<Numbers>, line: &str) -> String {
    let mut fields: Vec<_> = line.split(' ').map(bytes).collect();
    let [text, given, assignment, levels] = &mut fields[..] else {
        panic!("four fields: {line}");
    };
    let said = match call(text, given, assignment, levels) {
        Ok(numbers) => format!("ok {}", numbers.into().map(|x| x.to_string()).join(" ")),
        Err((number, spot)) => format!("refused {number} {spot}"),
    };
    format!("{said} {} {}", hex(assignment), hex(levels))
}

/// A field is `-` for no bytes, or items without a gap: two hexadecimal digits for a byte, or (HH)N; for that byte N times.
pub fn bytes(field: &str) -> Vec<u8> {
    let mut bytes = Vec::new();
    let mut rest = field.strip_prefix('-').unwrap_or(field);
    while !rest.is_empty() {
        let (digits, times);
        if let Some(item) = rest.strip_prefix('(') {
            let (byte, tail) = item.split_once(')').expect("a bracket");
            let (count, tail) = tail.split_once(';').expect("a semicolon");
            (digits, times, rest) = (byte, count.parse().expect("a number"), tail);
        } else {
            let (byte, tail) = rest.split_at(2);
            (digits, times, rest) = (byte, 1, tail);
        }
        let byte = u8::from_str_radix(digits, 16).expect("two digits");
        bytes.extend(std::iter::repeat_n(byte, times));
    }
    bytes
}

/// Each byte in two hexadecimal digits; `-` for none.
pub fn hex(bytes: &[u8]) -> String {
    if bytes.is_empty() {
        return "-".to_string();
    }
    bytes.iter().map(|byte| format!("{byte:02x}")).collect()
}
