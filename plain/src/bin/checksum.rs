//! Prints the bytes, the lines (bytes 10) and the FNV-1a 64-bit sum of standard input.

use std::io::{stdin, Read};

fn main() -> std::io::Result<()> {
    let mut input = stdin().lock();
    let mut part = [0; 65_536];
    let (mut bytes, mut lines) = (0u64, 0u64);
    let mut sum = 14_695_981_039_346_656_037u64;
    loop {
        let count = input.read(&mut part)?;
        if count == 0 {
            break;
        }
        for &byte in &part[..count] {
            bytes += 1;
            lines += (byte == 10) as u64;
            sum = (sum ^ byte as u64).wrapping_mul(1_099_511_628_211);
        }
    }
    println!("{bytes} {lines} {sum}");
    Ok(())
}
