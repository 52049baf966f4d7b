//! Reading bytes from left to right. `None` means that the bytes do not go on in the form; `at` is then the first byte that does not fit.

/// What a number above it is cut to. No atom and no variable is so large.
const CUT: u32 = 100_000;

pub struct Cursor<'a> {
    rest: &'a [u8],
    length: usize,
}

impl<'a> Cursor<'a> {
    pub fn new(bytes: &'a [u8]) -> Self {
        Cursor {
            rest: bytes,
            length: bytes.len(),
        }
    }

    /// How many bytes were read.
    pub fn at(&self) -> usize {
        self.length - self.rest.len()
    }

    pub fn ended(&self) -> bool {
        self.rest.is_empty()
    }

    pub fn peek(&self) -> Option<u8> {
        self.rest.first().copied()
    }

    /// Whether the byte comes next; it is then read.
    pub fn take(&mut self, byte: u8) -> bool {
        match self.rest.split_first() {
            Some((&first, rest)) if first == byte => {
                self.rest = rest;
                true
            }
            _ => false,
        }
    }

    pub fn expect<const N: usize>(&mut self, bytes: &[u8; N]) -> Option<()> {
        if let Some(rest) = self.rest.strip_prefix(bytes) {
            self.rest = rest;
            return Some(());
        }
        self.skip(self.common(bytes));
        None
    }

    /// How many bytes from here on are those of `bytes`.
    pub fn common(&self, bytes: &[u8]) -> usize {
        let same = |(x, y): &(&u8, &u8)| x == y;
        self.rest.iter().zip(bytes).take_while(same).count()
    }

    pub fn skip(&mut self, count: usize) {
        self.rest = &self.rest[count..];
    }

    /// The rest of a line and its byte 10.
    pub fn line(&mut self) -> Option<()> {
        match self.rest.iter().position(|&byte| byte == b'\n') {
            Some(end) => {
                self.skip(end + 1);
                Some(())
            }
            None => {
                self.rest = &[];
                None
            }
        }
    }

    /// 0, or digits without a leading zero; a large number is cut.
    pub fn number(&mut self) -> Option<u32> {
        let mut value = self.digit()?;
        if value == 0 {
            return Some(0);
        }
        while let Some(digit) = self.digit() {
            value = (value * 10 + digit).min(CUT);
        }
        Some(value)
    }

    fn digit(&mut self) -> Option<u32> {
        let (&first, rest) = self.rest.split_first()?;
        let digit = first.wrapping_sub(b'0');
        if digit > 9 {
            return None;
        }
        self.rest = rest;
        Some(digit as u32)
    }
}
