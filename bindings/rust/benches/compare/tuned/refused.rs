//! Which row refuses a program text, and where. Read with care from the first line on that has something wrong; once a row is met, whole
//! lines of the form are passed quickly.

use super::{Refusal, MAX_ATOMS, MAX_BODIES, MAX_RULES};

/// What a number above it is cut to. No limit is so large.
const CUT: usize = 1_000;
const RULE: u64 = u64::from_le_bytes(*b"(rule \0\0");

/// Bytes read so far, what they hold, and the first of rows 3 to 7 that they meet.
pub struct Careful<'a> {
    text: &'a [u8],
    at: usize,
    atoms: usize,
    rules: usize,
    bodies: usize,
    met: Option<Refusal>,
}

impl<'a> Careful<'a> {
    /// At the start of the text.
    pub fn new(text: &'a [u8]) -> Self {
        Careful::in_line(text, 0, 0, 0, 0)
    }

    /// At the start of a line, with nothing wrong before it.
    pub fn in_line(text: &'a [u8], at: usize, atoms: usize, rules: usize, bodies: usize) -> Self {
        Careful {
            text,
            at,
            atoms,
            rules,
            bodies,
            met: None,
        }
    }

    /// The refusal of a text that is not accepted.
    #[cold]
    pub fn refusal(mut self) -> Refusal {
        match self.form() {
            Some(()) => self.met.expect("a text that is not accepted"),
            None => (2, self.at),
        }
    }

    fn form(&mut self) -> Option<()> {
        if self.at == 0 {
            self.expect(b"(atoms ")?;
            let spot = self.at;
            self.atoms = self.number()?;
            if self.atoms > MAX_ATOMS {
                self.meet(3, spot);
            }
            self.expect(b")\n")?;
        }
        // Of a text without an end only the form is asked.
        let cut = self.text.last() != Some(&b'\n');
        while self.at < self.text.len() {
            if cut || self.met.is_some() {
                self.at = skim(self.text, self.at);
                if self.at == self.text.len() {
                    break;
                }
            }
            self.rule()?;
        }
        Some(())
    }

    fn rule(&mut self) -> Option<()> {
        if self.rules == MAX_RULES {
            self.meet(6, self.at);
        }
        self.expect(b"(rule ")?;
        self.atom()?;
        for _ in 0..2 {
            self.expect(b" (")?;
            self.list()?;
        }
        self.expect(b")\n")?;
        self.rules += 1;
        Some(())
    }

    /// A list after its opening bracket.
    fn list(&mut self) -> Option<()> {
        if self.next() == Some(b')') {
            self.at += 1;
            return Some(());
        }
        let mut before = 0;
        loop {
            let spot = self.at;
            let atom = self.atom()?;
            if atom <= before {
                self.meet(5, spot);
            }
            if self.bodies == MAX_BODIES {
                self.meet(7, spot);
            }
            before = atom;
            self.bodies += 1;
            if self.next() == Some(b')') {
                self.at += 1;
                return Some(());
            }
            self.expect(b" ")?;
        }
    }

    fn atom(&mut self) -> Option<usize> {
        let spot = self.at;
        let atom = self.number()?;
        if atom == 0 || atom > self.atoms {
            self.meet(4, spot);
        }
        Some(atom)
    }

    /// 0, or digits without a leading zero.
    fn number(&mut self) -> Option<usize> {
        let digit = |byte: u8| byte.is_ascii_digit().then(|| (byte - b'0') as usize);
        let mut value = digit(self.next()?)?;
        self.at += 1;
        if value == 0 {
            return Some(0);
        }
        while let Some(digit) = self.next().and_then(digit) {
            value = (10 * value + digit).min(CUT);
            self.at += 1;
        }
        Some(value)
    }

    fn next(&self) -> Option<u8> {
        self.text.get(self.at).copied()
    }

    fn expect(&mut self, bytes: &[u8]) -> Option<()> {
        for &byte in bytes {
            if self.next() != Some(byte) {
                return None;
            }
            self.at += 1;
        }
        Some(())
    }

    /// Only the first one counts: of two on one spot it has the smaller number.
    fn meet(&mut self, number: u32, spot: usize) {
        self.met.get_or_insert((number, spot));
    }
}

/// The start of the first line from `at` on that is not of the form or that is not looked at: behind the last byte 10.
fn skim(text: &[u8], mut at: usize) -> usize {
    let whole = text.iter().rposition(|&byte| byte == b'\n');
    let end = whole.map_or(0, |last| last + 1);
    // SAFETY: byte 10 is at the end, so that one is at or after each place that is read; eight bytes are there for the word.
    unsafe {
        while at + 15 <= end {
            let line = text.as_ptr().add(at);
            if super::load(line) & 0xffff_ffff_ffff != RULE {
                return at;
            }
            let Some(after) = rule_form(line.add(6)) else {
                return at;
            };
            at = after.offset_from(text.as_ptr()) as usize;
        }
    }
    at
}

/// Where a rule line ends, from its head on.
/// SAFETY: a byte 10 comes at or after `from`.
#[inline(always)]
unsafe fn rule_form(from: *const u8) -> Option<*const u8> {
    let from = list_form(opened(digits(from)?)?)?;
    let from = list_form(opened(from)?)?;
    (*from == b')' && *from.add(1) == b'\n').then(|| from.add(2))
}

/// Behind " (". SAFETY as above, and so on.
#[inline(always)]
unsafe fn opened(from: *const u8) -> Option<*const u8> {
    (*from == b' ' && *from.add(1) == b'(').then(|| from.add(2))
}

#[inline(always)]
unsafe fn list_form(mut from: *const u8) -> Option<*const u8> {
    if *from == b')' {
        return Some(from.add(1));
    }
    loop {
        from = digits(from)?;
        match *from {
            b' ' => from = from.add(1),
            b')' => return Some(from.add(1)),
            _ => return None,
        }
    }
}

/// Behind a number.
#[inline(always)]
unsafe fn digits(mut from: *const u8) -> Option<*const u8> {
    let digit = |from: *const u8| (*from).wrapping_sub(b'0') < 10;
    if *from == b'0' {
        return Some(from.add(1));
    }
    if !digit(from) {
        return None;
    }
    from = from.add(1);
    while digit(from) {
        from = from.add(1);
    }
    Some(from)
}
