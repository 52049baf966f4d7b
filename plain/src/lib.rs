//! A plain implementation of document 01's reader, clause file, check and filling out, to compare the proved one with.
//! No call allocates, except `write_all`.

#![forbid(unsafe_code)]

pub mod answer;
pub mod calls;
pub mod check;
pub mod clauses;
mod cursor;
pub mod digits;
pub mod fill;
pub mod full;
pub mod layout;
pub mod lines;
pub mod program;
pub mod text;

pub use check::check;
pub use fill::fill_out;
pub use lines::{line, run, write_all};
pub use program::Program;
pub use text::{read, read_program};

/// Number and spot of document 01's table of verdicts.
pub type Refusal = (u32, usize);
