//! Numbers in decimal, written into a buffer by hand.

/// 00 to 99.
const PAIRS: [[u8; 2]; 100] = {
    let mut pairs = [[0; 2]; 100];
    let mut i = 0;
    while i < 100 {
        pairs[i] = [b'0' + i as u8 / 10, b'0' + i as u8 % 10];
        i += 1;
    }
    pairs
};

/// How many digits a number has.
pub fn digits(mut value: usize) -> usize {
    let mut count = 1;
    while value > 9 {
        value /= 10;
        count += 1;
    }
    count
}

/// Writes the number from `at` on; where it ends.
pub fn put_number(buf: &mut [u8], at: usize, mut value: usize) -> usize {
    let end = at + digits(value);
    for place in buf[at..end].iter_mut().rev() {
        *place = b'0' + (value % 10) as u8;
        value /= 10;
    }
    end
}

/// How many bytes `put_literal` writes.
pub fn literal_width(literal: i32) -> usize {
    (literal < 0) as usize + digits(literal.unsigned_abs() as usize) + 1
}

/// Writes a literal below 10,000 and a space from `at` on; where they end.
#[inline(always)]
pub fn put_literal(buf: &mut [u8], mut at: usize, literal: i32) -> usize {
    if literal < 0 {
        buf[at] = b'-';
        at += 1;
    }
    let value = literal.unsigned_abs() as usize;
    let (high, low) = (PAIRS[value / 100], PAIRS[value % 100]);
    if value > 999 {
        put(buf, at, [high[0], high[1], low[0], low[1], b' '])
    } else if value > 99 {
        put(buf, at, [high[1], low[0], low[1], b' '])
    } else if value > 9 {
        put(buf, at, [low[0], low[1], b' '])
    } else {
        put(buf, at, [low[1], b' '])
    }
}

/// Writes the bytes from `at` on; where they end.
#[inline]
pub fn put<const N: usize>(buf: &mut [u8], at: usize, bytes: [u8; N]) -> usize {
    buf[at..at + N].copy_from_slice(&bytes);
    at + N
}
