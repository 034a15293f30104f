//! What can be wrong with a recording, in the order of the request: of several in one place, the first counts.

#[derive(Clone, Copy, Debug, PartialEq, Eq)]
pub enum Fault {
    WrongMark,
    WrongVersion,
    SpareByte,
    BadHeader,
    SequenceNotRising,
    WrongCounts,
    BytesAfterClosing,
    EndedEarly,
}

impl Fault {
    pub fn number(self) -> u8 {
        match self {
            Fault::WrongMark => 1,
            Fault::WrongVersion => 2,
            Fault::SpareByte => 3,
            Fault::BadHeader => 4,
            Fault::SequenceNotRising => 5,
            Fault::WrongCounts => 6,
            Fault::BytesAfterClosing => 7,
            Fault::EndedEarly => 8,
        }
    }
}
