//! Why a call refused its input.

use std::error::Error;
use std::fmt::{Display, Formatter, Result};

/// A row of the specification's table of verdicts, and where it was met or how much was needed.
#[derive(Clone, Copy, Debug, PartialEq, Eq, Hash)]
pub struct Refusal {
    /// The row, 1 to 18 but not 15.
    pub number: u64,
    /// A byte (from 0), a line, clause or atom (from 1), or a length, as the row says.
    pub spot: u64,
}

impl Refusal {
    /// The row's word.
    pub fn word(&self) -> &'static str {
        match self.number {
            1 => "overlong",
            2 => "malformed",
            3 => "too many atoms",
            4 => "unknown atom",
            5 => "unordered",
            6 => "too many rules",
            7 => "bodies full",
            8 => "short buffer",
            9 => "no such clause",
            10 => "overlong answer",
            11 => "malformed answer",
            12 => "no model offered",
            13 => "stray variable",
            14 => "repeated variable",
            16 => "false clause",
            17 => "bad set",
            18 => "unfounded",
            _ => "unknown row",
        }
    }
}

/// The word, the number and the spot, such as `malformed (2), spot 17`.
impl Display for Refusal {
    fn fmt(&self, f: &mut Formatter) -> Result {
        write!(f, "{} ({}), spot {}", self.word(), self.number, self.spot)
    }
}

impl Error for Refusal {}
