//! The refusal numbers.

use super::Reason;

/// Number 17 has no case here: it is given by the C call alone. Number 12 has none since change request K7 took NO ROOM out, and
/// isn't used again.
#[derive(Clone, Copy, Debug, PartialEq, Eq)]
pub enum Refusal {
    Short,
    Magic,
    Version,
    Layout,
    Length,
    Position,
    Writer,
    Spent,
    Far,
    /// With the position of the event and the first reason that holds there.
    Damaged {
        at: u64,
        why: Reason,
    },
    Disagree,
    Reader,
    Out,
    Generation,
    Size,
}

impl Refusal {
    pub fn number(self) -> u8 {
        match self {
            Refusal::Short => 1,
            Refusal::Magic => 2,
            Refusal::Version => 3,
            Refusal::Layout => 4,
            Refusal::Length => 5,
            Refusal::Position => 6,
            Refusal::Writer => 7,
            Refusal::Spent => 8,
            Refusal::Far => 9,
            Refusal::Damaged { .. } => 10,
            Refusal::Disagree => 11,
            Refusal::Reader => 13,
            Refusal::Out => 14,
            Refusal::Generation => 15,
            Refusal::Size => 16,
        }
    }
}

#[cfg(test)]
mod tests;
