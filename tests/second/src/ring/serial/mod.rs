//! The reader of recordings that arrive over a serial line: change request K4.
//!
//! It takes one byte after the other. So the place where a piece ends can make no difference, but for where a stretch ends.

mod fault;
#[cfg(test)]
mod tests;

use super::bytes::number;
use super::event::{well_formed_apart_from_room, HEADER};
use super::recording::{CLOSING, MARK, OPENING, VERSION};
use super::Refusal;
use fault::Fault;

const LONGEST_FILE: u64 = 1 << 62;

/// Where a header would start, so many zero bytes mean the closing: no event has a size of 0.
const CLOSING_KNOWN_BY: [u8; 4] = [0; 4];

#[derive(Clone, Debug, PartialEq, Eq)]
pub enum Report {
    /// An event's 32 bytes.
    Header(Vec<u8>),
    /// A stretch of an event's payload, by its place in the file.
    Payload {
        at: u64,
        length: u64,
    },
    Closing {
        handed: u64,
        missed: u64,
    },
    Fault {
        fault: Fault,
        place: u64,
    },
}

/// Fresh by default: nothing has arrived.
#[derive(Clone, Debug, Default, PartialEq, Eq)]
pub struct RecordingReader {
    /// The file's length so far, also after a fault; the next byte stands at this place.
    length: u64,
    awaited: Awaited,
    /// What has arrived of the opening, header or closing that is awaited; empty where none is.
    kept: Vec<u8>,
    cpu_id: u64,
    events: u64,
    last: u64,
}

#[derive(Clone, Copy, Debug, Default, PartialEq, Eq)]
enum Awaited {
    #[default]
    Opening,
    /// Its first four bytes say which of the two it is.
    HeaderOrClosing,
    /// So many bytes more, at least one.
    Payload(u64),
    End,
    /// A fault was met, so nothing that comes is looked at.
    Nothing,
}

impl RecordingReader {
    /// What a piece tells, in order. A refusal leaves the reader as it was.
    pub fn feed(&mut self, piece: &[u8]) -> Result<Vec<Report>, Refusal> {
        if u128::from(self.length) + piece.len() as u128 > u128::from(LONGEST_FILE) {
            return Err(Refusal::Far);
        }
        let mut reports = Vec::new();
        for byte in piece {
            if let Some(report) = self.take(*byte) {
                add(&mut reports, report);
            }
            self.length += 1;
        }
        Ok(reports)
    }

    /// The fault that the file's end makes, if any.
    pub fn end(&self) -> Option<Report> {
        match self.awaited {
            Awaited::End | Awaited::Nothing => None,
            _ => Some(Report::Fault { fault: Fault::EndedEarly, place: self.length }),
        }
    }

    fn take(&mut self, byte: u8) -> Option<Report> {
        match self.awaited {
            Awaited::Opening | Awaited::HeaderOrClosing => self.keep(byte),
            Awaited::Payload(left) => {
                self.await_payload(left - 1);
                Some(Report::Payload { at: self.length, length: 1 })
            }
            Awaited::End => Some(self.fault(Fault::BytesAfterClosing, self.length)),
            Awaited::Nothing => None,
        }
    }

    fn keep(&mut self, byte: u8) -> Option<Report> {
        let start = self.length - self.kept.len() as u64;
        self.kept.push(byte);
        if self.kept.len() < self.awaited_length() {
            return None;
        }
        let part = std::mem::take(&mut self.kept);
        self.judge(&part).unwrap_or_else(|fault| Some(self.fault(fault, start)))
    }

    fn awaited_length(&self) -> usize {
        match self.awaited {
            Awaited::Opening => OPENING,
            _ if self.kept.starts_with(&CLOSING_KNOWN_BY) => CLOSING,
            _ => HEADER as usize,
        }
    }

    /// A whole part, with its report unless it is the opening.
    fn judge(&mut self, part: &[u8]) -> Result<Option<Report>, Fault> {
        match self.awaited {
            Awaited::Opening => self.opening(part).map(|()| None),
            _ if part.starts_with(&CLOSING_KNOWN_BY) => self.closing(part).map(Some),
            _ => self.header(part).map(Some),
        }
    }

    fn opening(&mut self, opening: &[u8]) -> Result<(), Fault> {
        if opening[..3] != MARK {
            return Err(Fault::WrongMark);
        }
        if number(&opening[3..5]) != VERSION {
            return Err(Fault::WrongVersion);
        }
        if opening[7] != 0 {
            return Err(Fault::SpareByte);
        }
        self.cpu_id = number(&opening[5..7]);
        self.awaited = Awaited::HeaderOrClosing;
        Ok(())
    }

    fn header(&mut self, header: &[u8]) -> Result<Report, Fault> {
        let event = well_formed_apart_from_room(header, self.cpu_id, self.length).ok_or(Fault::BadHeader)?;
        if event.sequence <= self.last {
            return Err(Fault::SequenceNotRising);
        }
        self.events += 1;
        self.last = event.sequence;
        self.await_payload(event.size - HEADER);
        Ok(Report::Header(header.to_vec()))
    }

    fn closing(&mut self, closing: &[u8]) -> Result<Report, Fault> {
        if closing[..8] != [0; 8] {
            return Err(Fault::SpareByte);
        }
        let (handed, missed) = (number(&closing[8..16]), number(&closing[16..24]));
        if handed != self.events || missed != self.last - self.events {
            return Err(Fault::WrongCounts);
        }
        self.awaited = Awaited::End;
        Ok(Report::Closing { handed, missed })
    }

    fn await_payload(&mut self, left: u64) {
        self.awaited = if left == 0 { Awaited::HeaderOrClosing } else { Awaited::Payload(left) };
    }

    fn fault(&mut self, fault: Fault, place: u64) -> Report {
        self.awaited = Awaited::Nothing;
        Report::Fault { fault, place }
    }
}

/// Stretches that touch become one.
fn add(reports: &mut Vec<Report>, report: Report) {
    match (reports.last_mut(), &report) {
        (Some(Report::Payload { at, length }), Report::Payload { at: next, length: more }) if *at + *length == *next => {
            *length += more;
        }
        _ => reports.push(report),
    }
}
