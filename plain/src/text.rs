//! Reading a program text (document 01, "Program text" and rows 1 to 7 of "Verdicts").

use crate::cursor::Cursor;
use crate::layout::Layout;
use crate::program::{Program, Rule, MAX_ATOMS, MAX_RULES};
use crate::Refusal;

pub const MAX_BYTES: usize = 65_536;

/// V and C of a program text.
pub fn read(text: &[u8]) -> Result<(usize, usize), Refusal> {
    let mut program = Program::EMPTY;
    read_program(text, &mut program)?;
    let layout = Layout::new(&program);
    Ok((layout.variables(), layout.clauses()))
}

/// Reads a program text into `program`. Refused, that holds no program.
pub fn read_program(text: &[u8], program: &mut Program) -> Result<(), Refusal> {
    if text.len() > MAX_BYTES {
        return Err((1, text.len()));
    }
    program.clear();
    let mut reader = Reader {
        cursor: Cursor::new(text),
        program,
        fault: None,
    };
    if reader.form().is_none() {
        return Err((2, reader.cursor.at()));
    }
    reader.fault.map_or(Ok(()), Err)
}

/// The text is read once. A byte that fits no form stops the reading (row 2). Of rows 3 to 7 only the first one met is kept: it has
/// the smallest spot, and where two rows share a spot the one with the smaller number is looked at first.
struct Reader<'a> {
    cursor: Cursor<'a>,
    program: &'a mut Program,
    fault: Option<Refusal>,
}

impl Reader<'_> {
    fn form(&mut self) -> Option<()> {
        self.cursor.expect(b"(atoms ")?;
        let spot = self.cursor.at();
        self.program.atoms = self.cursor.number()? as usize;
        if self.program.atoms > MAX_ATOMS {
            self.refuse(3, spot);
        }
        self.cursor.expect(b")\n")?;
        while !self.cursor.ended() {
            self.rule()?;
        }
        Some(())
    }

    fn rule(&mut self) -> Option<()> {
        if self.program.rules().len() == MAX_RULES {
            self.refuse(6, self.cursor.at());
        }
        self.cursor.expect(b"(rule ")?;
        let head = self.atom()?;
        let start = self.program.bodies() as u16;
        self.cursor.expect(b" (")?;
        self.list()?;
        let middle = self.program.bodies() as u16;
        self.cursor.expect(b" (")?;
        self.list()?;
        let end = self.program.bodies() as u16;
        self.cursor.expect(b")\n")?;
        // Without room it was refused above.
        self.program.push_rule(Rule {
            head,
            start,
            middle,
            end,
        });
        Some(())
    }

    /// A list after its opening bracket.
    fn list(&mut self) -> Option<()> {
        if self.cursor.take(b')') {
            return Some(());
        }
        let mut before = 0;
        loop {
            let spot = self.cursor.at();
            let atom = self.atom()?;
            if atom <= before {
                self.refuse(5, spot);
            }
            before = atom;
            if !self.program.push_body(atom) {
                self.refuse(7, spot);
            }
            if self.cursor.take(b')') {
                return Some(());
            }
            self.cursor.expect(b" ")?;
        }
    }

    /// An atom's number; 0 for one that row 4 refuses.
    fn atom(&mut self) -> Option<u8> {
        let spot = self.cursor.at();
        let atom = self.cursor.number()? as usize;
        if atom == 0 || atom > self.program.atoms {
            self.refuse(4, spot);
        }
        Some(u8::try_from(atom).unwrap_or(0))
    }

    #[cold]
    fn refuse(&mut self, number: u32, spot: usize) {
        self.fault.get_or_insert((number, spot));
    }
}

#[cfg(test)]
mod tests {
    use super::read;

    fn refusal(text: &str) -> Option<(u32, usize)> {
        read(text.as_bytes()).err()
    }

    #[test]
    fn malformed() {
        assert_eq!(refusal(""), Some((2, 0)));
        assert_eq!(refusal("\n"), Some((2, 0)));
        assert_eq!(refusal("(atoms )\n"), Some((2, 7)));
        assert_eq!(refusal("(atoms 01)\n"), Some((2, 8)));
        assert_eq!(refusal("(atoms 1)"), Some((2, 9)));
        assert_eq!(refusal("(atoms 1)\r\n"), Some((2, 9)));
        assert_eq!(refusal("(atoms 1)\n\n"), Some((2, 10)));
        assert_eq!(refusal("(atoms 1)\n(deny () ())\n"), Some((2, 11)));
        assert_eq!(refusal("(atoms 1)\n(rule 1 ( ) ())\n"), Some((2, 19)));
        assert_eq!(refusal("(atoms 1)\n(rule 1 (1 ) ())\n"), Some((2, 21)));
        // the form comes before the other rows, however early their spots
        assert_eq!(refusal("(atoms 127)\n("), Some((2, 13)));
        let digits = format!("(atoms {}", "1".repeat(65_529));
        assert_eq!(refusal(&digits), Some((2, 65_536)));
    }

    #[test]
    fn overlong() {
        assert_eq!(refusal(&"x".repeat(65_536)), Some((2, 0)));
        assert_eq!(refusal(&"x".repeat(65_537)), Some((1, 65_537)));
    }

    #[test]
    fn atoms_and_order() {
        assert_eq!(refusal("(atoms 126)\n"), None);
        assert_eq!(refusal("(atoms 127)\n"), Some((3, 7)));
        assert_eq!(refusal("(atoms 4294967297)\n"), Some((3, 7)));
        assert_eq!(refusal("(atoms 2)\n(rule 0 () ())\n"), Some((4, 16)));
        assert_eq!(refusal("(atoms 2)\n(rule 3 () ())\n"), Some((4, 16)));
        assert_eq!(
            refusal("(atoms 2)\n(rule 1 (18446744073709551617) ())\n"),
            Some((4, 19))
        );
        assert_eq!(refusal("(atoms 2)\n(rule 1 (2 2) ())\n"), Some((5, 21)));
        assert_eq!(refusal("(atoms 2)\n(rule 1 (1) (2 1))\n"), Some((5, 25)));
        // 4 before 5 on the same spot
        assert_eq!(refusal("(atoms 2)\n(rule 1 (2 0) ())\n"), Some((4, 21)));
        // one atom in both lists, and a second list that starts below the first one's end
        assert_eq!(refusal("(atoms 2)\n(rule 1 (1 2) (1))\n"), None);
    }

    #[test]
    fn rules_and_bodies_full() {
        let fact = "(rule 1 () ())\n";
        assert_eq!(refusal(&format!("(atoms 1)\n{}", fact.repeat(500))), None);
        assert_eq!(
            refusal(&format!("(atoms 1)\n{}", fact.repeat(502))),
            Some((6, 10 + 500 * 15))
        );
        // rule 501 is refused at its first byte, before its unknown head
        let more = format!("(atoms 1)\n{}(rule 9 (9) ())\n", fact.repeat(500));
        assert_eq!(refusal(&more), Some((6, 10 + 500 * 15)));
        let both = "(rule 1 (1) (1))\n";
        assert_eq!(refusal(&format!("(atoms 1)\n{}", both.repeat(250))), None);
        let more = format!("(atoms 1)\n{}", both.repeat(252));
        assert_eq!(refusal(&more), Some((7, 10 + 250 * 17 + 9)));
        // 4 and 5 before 7 on the same spot
        let tie = format!("(atoms 1)\n{}(rule 1 (2) ())\n", both.repeat(250));
        assert_eq!(refusal(&tie), Some((4, 10 + 250 * 17 + 9)));
    }
}
