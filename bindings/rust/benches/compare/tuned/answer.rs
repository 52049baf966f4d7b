//! Solver answers. Most literals are read quickly; those that are not go through `literal`.

use super::Refusal;

const MAX_ANSWER: usize = 65_536;

/// In the values, for a variable that the answer has not named so far. Its lowest bit is that of false.
pub const MISSING: u8 = 2;

const STATUSES: [&[u8]; 3] = [b"s SATISFIABLE\n", b"s UNSATISFIABLE\n", b"s UNKNOWN\n"];

/// An answer as far as it is read, the values that it gives, how many, and the first of rows 13 and 14.
pub struct Reader<'a> {
    pub answer: &'a [u8],
    pub at: usize,
    pub values: &'a mut [u8],
    pub given: usize,
    met: Option<Refusal>,
    /// Whether the values given are those of the first variables.
    pub in_order: bool,
}

/// Enters an answer's literals into the values, which are all missing before: how many, and the first of rows 13 and 14. Rows 10 to 12
/// are the error.
#[inline(always)]
pub fn read_answer(answer: &[u8], values: &mut [u8]) -> Result<(usize, Option<Refusal>), Refusal> {
    if answer.len() > MAX_ANSWER {
        return Err((10, answer.len()));
    }
    let mut reader = Reader {
        answer,
        at: 0,
        values,
        given: 0,
        met: None,
        in_order: true,
    };
    match reader.form() {
        Some(true) => Ok((reader.given, reader.met)),
        Some(false) => Err((12, 0)),
        None => Err((11, reader.at)),
    }
}

impl Reader<'_> {
    /// Whether the answer has a model; None where it leaves the form.
    #[inline(always)]
    fn form(&mut self) -> Option<bool> {
        self.comments()?;
        if !self.status()? {
            return Some(false);
        }
        loop {
            self.comments()?;
            self.expect(b'v')?;
            if self.values()? {
                break;
            }
        }
        self.comments()?;
        (self.at == self.answer.len()).then_some(true)
    }

    #[inline(always)]
    fn next(&self) -> Option<u8> {
        self.answer.get(self.at).copied()
    }

    #[inline(always)]
    fn expect(&mut self, byte: u8) -> Option<()> {
        let found = self.next() == Some(byte);
        self.at += found as usize;
        found.then_some(())
    }

    /// Lines that start with c.
    #[inline(always)]
    fn comments(&mut self) -> Option<()> {
        while self.next() == Some(b'c') {
            let end = self.line_end();
            self.at = end.map_or(self.answer.len(), |end| end + 1);
            end?;
        }
        Some(())
    }

    /// Whether the status line says that there is a model.
    #[inline(always)]
    fn status(&mut self) -> Option<bool> {
        let rest = &self.answer[self.at..];
        if rest.starts_with(STATUSES[0]) {
            self.at += STATUSES[0].len();
            return Some(true);
        }
        let common = |status: &[u8]| {
            let same = rest.iter().zip(status).take_while(|(x, y)| x == y);
            same.count()
        };
        let longest = STATUSES.map(common).into_iter().max().unwrap_or(0);
        self.at += longest;
        let whole = STATUSES.iter().any(|status| rest.starts_with(status));
        whole.then_some(false)
    }

    /// A v line after its v; whether literal 0 is in it.
    #[inline(always)]
    fn values(&mut self) -> Option<bool> {
        loop {
            self.quick();
            if self.next() != Some(b' ') {
                self.expect(b'\n')?;
                return Some(false);
            }
            self.at += 1;
            if self.next() == Some(b'0') {
                self.at += 1;
                self.expect(b'\n')?;
                return Some(true);
            }
            self.literal()?;
        }
    }

    /// Any literal but 0.
    #[cold]
    fn literal(&mut self) -> Option<()> {
        let spot = self.at;
        let positive = self.next() != Some(b'-');
        self.at += !positive as usize;
        let digit = |byte: u8| byte.is_ascii_digit().then(|| (byte - b'0') as usize);
        let mut variable = digit(self.next()?).filter(|&first| first > 0)?;
        self.at += 1;
        while let Some(digit) = self.next().and_then(digit) {
            variable = (10 * variable + digit).min(100_000);
            self.at += 1;
        }
        match self.values.get_mut(variable - 1) {
            Some(value) if *value == MISSING => {
                *value = positive as u8;
                self.given += 1;
                self.in_order = false;
            }
            Some(_) => _ = self.met.get_or_insert((14, spot)),
            None => _ = self.met.get_or_insert((13, spot)),
        }
        Some(())
    }
}
