//! Ground normal logic programs as clauses for a SAT solver, the check of the solver's answer, and filling out a proposed set of atoms.
//!
//! The functions call a library whose results are proved to be those of the specification; include/quadrensolo.h describes its C
//! interface. They keep nothing and, [`clause_file`] apart, allocate nothing. Bytes of a lent buffer that a comment does not name stay
//! as they were.
//!
//! ```
//! let text = b"(atoms 2)\n(rule 1 () (2))\n(rule 2 (1) (1))\n";
//! let totals = quadrensolo::read(text)?;
//! let (mut assignment, mut levels) = (vec![0; totals.variables], [0; 2]);
//!
//! // Atom 1 alone is a stable model.
//! let model = quadrensolo::fill_out(text, &[1, 0], &mut assignment, &mut levels)?;
//! assert_eq!((model.true_atoms, model.highest_level, levels), (1, 1, [1, 0]));
//!
//! // A solver that finds it for the clauses prints this answer.
//! let file = quadrensolo::clause_file(text)?;
//! assert!(file.starts_with(b"p cnf 18 53\n"));
//! let mut answer = b"s SATISFIABLE\nv".to_vec();
//! for (variable, value) in (1..).zip(&assignment) {
//!     answer.extend(format!(" {}{variable}", if *value == 1 { "" } else { "-" }).bytes());
//! }
//! answer.extend(b" 0\n");
//! assert_eq!(quadrensolo::check(text, &answer, &mut assignment, &mut levels), Ok(model));
//!
//! // A variable that an answer leaves out is read as false: here 12 of the 18.
//! let answer = b"s SATISFIABLE\nv 1 3 5 7 12 13 0\n";
//! let short = quadrensolo::check(text, answer, &mut assignment, &mut levels)?;
//! assert_eq!(short, quadrensolo::Model { assumed: 12, ..model });
//!
//! // Atom 2 alone is not one: row 18, and the set and its least model differ in atom 2.
//! let refusal = quadrensolo::fill_out(text, &[0, 1], &mut assignment, &mut levels).unwrap_err();
//! assert_eq!(refusal.to_string(), "unfounded (18), spot 2");
//! # Ok::<(), quadrensolo::Refusal>(())
//! ```

mod refusal;
pub mod sys;

pub use refusal::Refusal;

/// No line of a clause file is longer.
pub const MAX_LINE: usize = 3_008;

/// The size of a clause file.
#[derive(Clone, Copy, Debug, PartialEq, Eq)]
pub struct Totals {
    /// V
    pub variables: usize,
    /// C
    pub clauses: usize,
}

/// Lines that were written.
#[derive(Clone, Copy, Debug, PartialEq, Eq)]
pub struct Run {
    pub lines: usize,
    pub bytes: usize,
}

/// A stable model; the buffers have its assignment and levels.
#[derive(Clone, Copy, Debug, PartialEq, Eq)]
pub struct Model {
    pub true_atoms: usize,
    /// 0 if no atom is true.
    pub highest_level: usize,
    /// How many variables the answer leaves out: they are read as false. 0 from [`fill_out`].
    pub assumed: usize,
}

/// Reads a program text. Rows 1 to 7.
pub fn read(text: &[u8]) -> Result<Totals, Refusal> {
    // SAFETY: the slice's pointer and length.
    let reply = unsafe { sys::qs_read(text.as_ptr(), text.len()) };
    let (variables, clauses) = accepted(reply)?;
    Ok(Totals { variables, clauses })
}

/// Line j of the text's clause file, with its line end, written into `buf` from byte `place` on: its length. Line 0 is the header, line j
/// is clause j. Rows 1 to 7, 9 and 8; refused, nothing is written.
pub fn line(text: &[u8], j: usize, place: usize, buf: &mut [u8]) -> Result<usize, Refusal> {
    // SAFETY: the slices' pointers and lengths; `buf` overlaps nothing.
    let reply = unsafe {
        sys::qs_line(
            text.as_ptr(),
            text.len(),
            j,
            place,
            buf.as_mut_ptr(),
            buf.len(),
        )
    };
    accepted(reply).map(|(length, _)| length)
}

/// As many whole lines as fit `buf`, from line j on, at least one, written from byte 0 on. The next call goes on with line
/// `j + lines`, until that is above C. Rows as for [`line()`], for line j at place 0; refused, nothing is written.
pub fn run(text: &[u8], j: usize, buf: &mut [u8]) -> Result<Run, Refusal> {
    // SAFETY: the slices' pointers and lengths; `buf` overlaps nothing.
    let reply = unsafe { sys::qs_run(text.as_ptr(), text.len(), j, buf.as_mut_ptr(), buf.len()) };
    let (lines, bytes) = accepted(reply)?;
    Ok(Run { lines, bytes })
}

/// Whether the solver's answer shows a stable model of the program; a variable that it leaves out is read as false. Accepted, the first V
/// bytes of `assignment` are the values of the variables, and the first bytes of `levels` the atoms' levels, 0 for a false atom. Rows 1 to
/// 8, 10 to 14 and 16; refusals 13, 14 and 16 zero the first V bytes of `assignment`, the others write nothing.
pub fn check(
    text: &[u8],
    answer: &[u8],
    assignment: &mut [u8],
    levels: &mut [u8],
) -> Result<Model, Refusal> {
    // SAFETY: the slices' pointers and lengths; what is written overlaps nothing.
    let reply = unsafe {
        sys::qs_check(
            text.as_ptr(),
            text.len(),
            answer.as_ptr(),
            answer.len(),
            assignment.as_mut_ptr(),
            assignment.len(),
            levels.as_mut_ptr(),
            levels.len(),
        )
    };
    model(reply)
}

/// Whether the set, one byte of 0 or 1 for each atom, is a stable model of the program. What is written is as for [`check`]. Rows 1 to 8,
/// 17 and 18; refused, nothing is written.
pub fn fill_out(
    text: &[u8],
    set: &[u8],
    assignment: &mut [u8],
    levels: &mut [u8],
) -> Result<Model, Refusal> {
    // SAFETY: the slices' pointers and lengths; what is written overlaps nothing.
    let reply = unsafe {
        sys::qs_fill(
            text.as_ptr(),
            text.len(),
            set.as_ptr(),
            set.len(),
            assignment.as_mut_ptr(),
            assignment.len(),
            levels.as_mut_ptr(),
            levels.len(),
        )
    };
    model(reply)
}

/// The whole clause file. Rows 1 to 7.
pub fn clause_file(text: &[u8]) -> Result<Vec<u8>, Refusal> {
    let clauses = read(text)?.clauses;
    // Lines have 20 bytes or less on average in most files, so one run is mostly enough.
    let mut file = vec![0; 20 * clauses + MAX_LINE];
    let (mut next, mut length) = (0, 0);
    loop {
        let run = run(text, next, &mut file[length..])?;
        next += run.lines;
        length += run.bytes;
        if next > clauses {
            file.truncate(length);
            return Ok(file);
        }
        // Doubled, it has room for any line.
        file.resize(2 * file.len(), 0);
    }
}

fn accepted(reply: sys::Reply) -> Result<(usize, usize), Refusal> {
    let sys::Reply {
        number, spot, a, b, ..
    } = reply;
    match number {
        0 => Ok((a as usize, b as usize)),
        _ => Err(Refusal { number, spot }),
    }
}

fn model(reply: sys::Reply) -> Result<Model, Refusal> {
    let (true_atoms, highest_level) = accepted(reply)?;
    Ok(Model {
        true_atoms,
        highest_level,
        assumed: reply.c as usize,
    })
}
