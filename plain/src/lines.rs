//! The lines of the clause file in a lent buffer (document 01, "Clauses, in order", rows 8 and 9 of "Verdicts").

use crate::clauses::{Clauses, Flow, Sink};
use crate::digits::{digits, literal_width, put, put_literal, put_number};
use crate::{read_program, Program, Refusal};
use std::ops::ControlFlow::{Break, Continue};

/// No line is longer.
pub const MAX_LINE: usize = 3_008;

/// Line j, written into `buf` from `place` on; its length with byte 10. Refused, it writes nothing.
pub fn line(text: &[u8], j: usize, place: usize, buf: &mut [u8]) -> Result<usize, Refusal> {
    // Past the end there are no bytes.
    let tail = buf.get_mut(place..).unwrap_or_default();
    lines(text, j, 1, tail).map(|(_, bytes)| bytes)
}

/// As many whole lines as fit `buf`, from line j on, at least one; how many, and their bytes. Refused, it writes nothing.
pub fn run(text: &[u8], j: usize, buf: &mut [u8]) -> Result<(usize, usize), Refusal> {
    lines(text, j, usize::MAX, buf)
}

/// The whole clause file.
pub fn write_all(text: &[u8]) -> Result<Vec<u8>, Refusal> {
    let mut program = Program::EMPTY;
    read_program(text, &mut program)?;
    let clauses = Clauses::new(&program);
    let mut file = vec![0; MAX_LINE];
    let (mut next, mut length) = (0, 0);
    while next <= clauses.layout.clauses() {
        // There is room for a line, so no refusal.
        let (count, bytes) = lines_of(&clauses, next, usize::MAX, &mut file[length..])?;
        next += count;
        length += bytes;
        file.resize(2 * file.len(), 0);
    }
    file.truncate(length);
    Ok(file)
}

fn lines(text: &[u8], j: usize, most: usize, buf: &mut [u8]) -> Result<(usize, usize), Refusal> {
    let mut program = Program::EMPTY;
    read_program(text, &mut program)?;
    let clauses = Clauses::new(&program);
    let count = clauses.layout.clauses();
    if j > count {
        return Err((9, count));
    }
    lines_of(&clauses, j, most, buf)
}

/// At most `most` lines from line j on; j is at most C.
fn lines_of(
    clauses: &Clauses,
    j: usize,
    most: usize,
    buf: &mut [u8],
) -> Result<(usize, usize), Refusal> {
    let mut lines = Lines {
        buf,
        end: 0,
        count: 0,
        most,
        need: 0,
    };
    let flow = match j {
        0 => lines.header(clauses.layout.variables(), clauses.layout.clauses()),
        _ => Continue(()),
    };
    if flow.is_continue() {
        // Where it ended is in `lines`.
        let _ = clauses.walk(j.max(1), &mut lines);
    }
    match lines.count {
        0 => Err((8, lines.need)),
        count => Ok((count, lines.end)),
    }
}

/// Lines in a buffer, up to `end`.
struct Lines<'a> {
    buf: &'a mut [u8],
    end: usize,
    count: usize,
    most: usize,
    /// The length of the line that did not fit.
    need: usize,
}

impl Lines<'_> {
    /// Line 0.
    fn header(&mut self, variables: usize, clauses: usize) -> Flow {
        self.room(|| 8 + digits(variables) + digits(clauses))?;
        let mut at = put(self.buf, self.end, *b"p cnf ");
        at = put_number(self.buf, at, variables);
        at = put(self.buf, at, *b" ");
        at = put_number(self.buf, at, clauses);
        at = put(self.buf, at, *b"\n");
        self.ended(at)
    }

    /// Whether a line of that length fits. The length is asked for only where the longest line would not fit.
    #[inline]
    fn room(&mut self, length: impl FnOnce() -> usize) -> Flow {
        let room = self.buf.len() - self.end;
        if room < MAX_LINE {
            self.need = length();
            if self.need > room {
                return Break(());
            }
        }
        Continue(())
    }

    #[inline]
    fn ended(&mut self, end: usize) -> Flow {
        self.end = end;
        self.count += 1;
        if self.count == self.most {
            return Break(());
        }
        Continue(())
    }
}

impl Sink for Lines<'_> {
    #[inline]
    fn clause(&mut self, literals: impl IntoIterator<Item = i32, IntoIter: Clone>) -> Flow {
        let literals = literals.into_iter();
        self.room(|| literals.clone().map(literal_width).sum::<usize>() + 2)?;
        let at = literals.fold(self.end, |at, literal| put_literal(self.buf, at, literal));
        let at = put(self.buf, at, *b"0\n");
        self.ended(at)
    }
}

#[cfg(test)]
mod tests {
    use super::*;

    const FACT: &[u8] = b"(atoms 1)\n(rule 1 () ())\n";

    /// Line 0, after comparing its count with the lines that follow.
    fn header(text: &str) -> String {
        let file = String::from_utf8(write_all(text.as_bytes()).unwrap()).unwrap();
        let (first, clauses) = file.split_once('\n').unwrap();
        let count = first.rsplit(' ').next().unwrap();
        assert_eq!(clauses.lines().count().to_string(), count);
        first.to_string()
    }

    #[test]
    fn the_fact() {
        let lines = "p cnf 7 16 | 2 0 | 1 -2 0 | -1 2 0 | 1 -4 0 | 1 -5 0 | -6 -4 0 | 6 4 0 | 4 -7 5 0 | 4 7 -5 0 \
                     | -4 -7 -5 0 | -4 7 5 0 | -3 2 0 | 3 -2 0 | -2 4 0 | -2 -5 0 | -1 3 0";
        let file = lines.replace(" | ", "\n") + "\n";
        assert_eq!(write_all(FACT), Ok(file.into_bytes()));
    }

    #[test]
    fn counts() {
        assert_eq!(header("(atoms 0)\n"), "p cnf 0 0");
        assert_eq!(
            header("(atoms 2)\n(rule 1 (2) ())\n(rule 2 (1) ())\n"),
            "p cnf 22 70"
        );
        assert_eq!(
            header("(atoms 4)\n(rule 1 () ())\n(rule 1 (3) ())\n(rule 2 (1) ())\n(rule 3 (1 2) ())\n(rule 4 (3 4) ())\n"),
            "p cnf 74 287"
        );
        assert_eq!(
            header("(atoms 1)\n(rule 1 () ())\n(rule 1 (1) ())\n"),
            "p cnf 13 41"
        );
        // n 7, m 3, K 3, w 4; one rule with B empty; O 6
        assert_eq!(
            header("(atoms 7)\n(rule 7 (1 2) (2 6))\n(rule 2 () (7))\n(rule 7 (7) ())\n"),
            "p cnf 93 335"
        );
    }

    const MIXED: &[u8] = b"(atoms 5)\n(rule 3 (1 2) (2 4))\n(rule 1 () (5))\n(rule 3 () ())\n(rule 2 (3) ())\n(rule 2 (3) ())\n";

    #[test]
    fn lines_one_by_one() {
        let file = write_all(MIXED).unwrap();
        let count = file.iter().filter(|&&byte| byte == 10).count();
        for (j, expected) in file.split_inclusive(|&byte| byte == 10).enumerate() {
            let mut buf = [7; 100];
            assert_eq!(line(MIXED, j, 3, &mut buf), Ok(expected.len()));
            let end = 3 + expected.len();
            assert_eq!(&buf[3..end], expected);
            assert!(buf[..3].iter().chain(&buf[end..]).all(|&byte| byte == 7));
        }
        assert_eq!(line(MIXED, count, 0, &mut [0; 100]), Err((9, count - 1)));
    }

    #[test]
    fn runs_of_each_length() {
        let file = write_all(MIXED).unwrap();
        let mut start = 0;
        for (j, first) in file.split_inclusive(|&byte| byte == 10).enumerate() {
            let rest = &file[start..];
            start += first.len();
            for room in (0..=rest.len().min(100)).chain([rest.len(), rest.len() + MAX_LINE]) {
                let mut buf = vec![7; room];
                let fits = &rest[..room.min(rest.len())];
                let end = fits.iter().rposition(|&b| b == 10).map_or(0, |at| at + 1);
                let count = fits.iter().filter(|&&byte| byte == 10).count();
                let expected = match count {
                    0 => Err((8, first.len())),
                    _ => Ok((count, end)),
                };
                assert_eq!(run(MIXED, j, &mut buf), expected);
                assert_eq!(&buf[..end], &rest[..end]);
                assert!(buf[end..].iter().all(|&byte| byte == 7));
            }
        }
    }

    #[test]
    fn refused_lines() {
        let mut buf = *b"12345678";
        // line 1 is "2 0" and byte 10
        assert_eq!(line(FACT, 1, 5, &mut buf), Err((8, 4)));
        assert_eq!(line(FACT, 1, 8, &mut buf), Err((8, 4)));
        assert_eq!(line(FACT, 1, 9, &mut buf), Err((8, 4)));
        assert_eq!(line(FACT, 1, usize::MAX, &mut buf), Err((8, 4)));
        assert_eq!(line(FACT, 17, usize::MAX, &mut buf), Err((9, 16)));
        assert_eq!(line(FACT, usize::MAX, 0, &mut buf), Err((9, 16)));
        assert_eq!(line(b"(atoms 0)\n", 1, 0, &mut buf), Err((9, 0)));
        assert_eq!(line(b"", 1, 0, &mut buf), Err((2, 0)));
        assert_eq!(run(FACT, 0, &mut buf), Err((8, 11)));
        assert_eq!(run(FACT, 17, &mut []), Err((9, 16)));
        assert_eq!(&buf, b"12345678");
        assert_eq!(line(FACT, 1, 4, &mut buf), Ok(4));
        assert_eq!(&buf, b"12342 0\n");
    }
}
