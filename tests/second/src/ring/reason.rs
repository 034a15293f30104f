//! Why an event is bad: change request K5.

/// In the order of the request: of several that hold, the first is given.
#[derive(Clone, Copy, Debug, PartialEq, Eq)]
pub enum Reason {
    /// Fewer than 32 up to write_pos; then no field is looked at.
    FewBytesLeft,
    HeaderSize,
    EventSizeUnder32,
    PastWritePos,
    CpuId,
    SpareBytes,
    /// Only of an event that is well formed, and only where sequences are looked at.
    SequenceNotRising,
}

impl Reason {
    pub fn number(self) -> u8 {
        match self {
            Reason::FewBytesLeft => 1,
            Reason::HeaderSize => 2,
            Reason::EventSizeUnder32 => 3,
            Reason::PastWritePos => 4,
            Reason::CpuId => 5,
            Reason::SpareBytes => 6,
            Reason::SequenceNotRising => 7,
        }
    }
}

#[cfg(test)]
mod tests;
