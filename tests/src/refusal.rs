//! The numbers of the refusals.

use std::fmt;

/// Why a call was refused.
#[derive(Clone, Copy, Debug, PartialEq, Eq, PartialOrd, Ord)]
pub enum Refusal {
    /// The file has fewer than 16 bytes, or not as many as its header states.
    Length = 1,
    /// A count, the horizon or a zero byte of the header is wrong.
    Header = 2,
    /// A chain names no record or one of another kind, or is too short or long.
    Chain = 3,
    /// Another field of a record is wrong.
    Record = 4,
    /// The schedule does not rise.
    Order = 5,
    /// The table has no room for what is to be added.
    Full = 6,
    /// The run or the table is not sound.
    Unsound = 7,
    /// A lent length is out of range, or columns differ in length.
    Buffer = 8,
    /// There is no such node, letter, pattern, entry or place, there are too many
    /// letters, or a function is not 0 or 1 everywhere and has to be.
    Question = 9,
    /// Nothing pends and nothing is scheduled.
    Finished = 10,
    /// A resistance would be above the ceiling.
    Ceiling = 11,
}

/// How many answers there are: 0 for an answered call, and the refusals.
pub const ANSWERS: usize = 12;

impl Refusal {
    /// The number that the tool gives.
    pub fn number(self) -> u32 {
        self as u32
    }
}

impl fmt::Display for Refusal {
    fn fmt(&self, out: &mut fmt::Formatter<'_>) -> fmt::Result {
        write!(out, "refused {}", self.number())
    }
}
