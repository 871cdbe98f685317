//! Answers: what a call hands back, and the numbers of refusal.

/// The two texts that are lent to a check.
#[derive(Clone, Copy, Debug, PartialEq, Eq)]
pub enum Text {
    Program,
    Output,
}

impl Text {
    /// The text's name in an answer line.
    pub fn name(self) -> &'static str {
        match self {
            Text::Program => "program",
            Text::Output => "output",
        }
    }
}

/// A part of one of the two texts.
#[derive(Clone, Copy, Debug, PartialEq, Eq)]
pub struct Part {
    pub text: Text,
    pub start: usize,
    pub length: usize,
}

impl Part {
    /// No bytes of a text, at one of its places.
    pub fn empty(text: Text, start: usize) -> Part {
        Part { text, start, length: 0 }
    }
}

/// A refusal: its number in the paper's table, and the part handed back.
#[derive(Clone, Copy, Debug, PartialEq, Eq)]
pub struct Refusal {
    pub number: u8,
    pub part: Part,
}

/// A text is over its size.
pub const OVER_SIZE: u8 = 1;
/// A token, a byte, a line or an end that the grammar can't have there.
pub const NOT_GRAMMAR: u8 = 2;
/// A number over its size.
pub const NUMBER_TOO_BIG: u8 = 3;
/// Another size is passed.
pub const TOO_MANY: u8 = 4;
/// A variable is not bound.
pub const NOT_BOUND: u8 = 5;
/// A fact repeats an earlier one.
pub const REPEATED: u8 = 6;
/// A fact and an earlier one differ only in sign.
pub const OPPOSITE: u8 = 7;
/// Arithmetic leaves the range.
pub const OUT_OF_RANGE: u8 = 8;
/// A lent buffer is too short.
pub const NO_ROOM: u8 = 9;
/// The solver's code and its report disagree.
pub const CODE_DISAGREES: u8 = 10;
/// A rule has several heads, and the candidate too many facts for the test of every subset.
pub const TOO_MANY_FOR_SUBSETS: u8 = 12;

/// What a call answers. Rules and positions count from 1; where there are no rounds, none is written.
#[derive(Clone, Debug, PartialEq, Eq)]
pub enum Answer {
    Accepted { atoms: usize, rounds: usize },
    Unsatisfied { rule: usize, body: Vec<usize> },
    Smaller { kept: Vec<usize> },
    ClaimedNone,
    ClaimedUnknown,
    Written { length: usize },
    Refused(Refusal),
}
