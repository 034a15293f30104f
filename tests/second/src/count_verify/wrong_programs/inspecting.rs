//! The ring isn't inspected, or not first.

use super::{compared, right, Answer, Program};
use crate::count_verify::recording::{agreed, as_it_stands};
use crate::ring::{inspect, Refusal, Verified};

pub const WRONG: [(&str, Program); 3] = [
    ("the ring isn't inspected", not_inspected),
    ("the ring is inspected last", inspected_last),
    ("the recording's front is judged first", front_judged_first),
];

/// Refusals 1 to 6 alone: no event is looked at.
fn pages_inspected(ring: &[u8]) -> Result<(), Refusal> {
    match inspect(ring) {
        Ok(_) | Err(Refusal::Damaged { .. }) => Ok(()),
        Err(refusal) => Err(refusal),
    }
}

fn not_inspected(ring: &[u8], recording: &[u8]) -> Answer {
    pages_inspected(ring)?;
    Ok(compared(&as_it_stands(ring), recording))
}

fn inspected_last(ring: &[u8], recording: &[u8]) -> Answer {
    match not_inspected(ring, recording)? {
        Verified::Same => right(ring, recording),
        differs => Ok(differs),
    }
}

/// Mark and version are told wrong before any refusal is asked.
fn front_judged_first(ring: &[u8], recording: &[u8]) -> Answer {
    match agreed(b"SPL\x01\0", recording) {
        5 => right(ring, recording),
        place => Ok(Verified::DiffersAt(place)),
    }
}
