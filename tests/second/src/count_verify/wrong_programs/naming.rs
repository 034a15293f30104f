//! Another place is named.

use super::{right, Answer, Program};
use crate::count_rings::{tail, write};
use crate::count_verify::recording::{as_it_stands, starts, OPENING};
use crate::ring::Verified;

pub const WRONG: [(&str, Program); 7] = [
    ("the longer length is named", |ring, recording| named(ring, recording, longer_length)),
    ("the place is counted from the first event", |ring, recording| named(ring, recording, from_the_first_event)),
    ("the place is counted from 1", |ring, recording| named(ring, recording, |_, _, place| place + 1)),
    ("the place is a position of the ring", |ring, recording| named(ring, recording, position)),
    ("the place is where the part begins", |ring, recording| named(ring, recording, start_of_part)),
    ("the last place that differs is named", |ring, recording| named(ring, recording, last_place)),
    ("two lengths are told before the bytes are looked at", |ring, recording| named(ring, recording, shorter_length)),
];

/// Makes another number of the ring, the recording and the place.
type Name = fn(&[u8], &[u8], usize) -> usize;

fn named(ring: &[u8], recording: &[u8], name: Name) -> Answer {
    right(ring, recording).map(|answer| match answer {
        Verified::Same => Verified::Same,
        Verified::DiffersAt(place) => Verified::DiffersAt(name(ring, recording, place)),
    })
}

fn longer_length(ring: &[u8], recording: &[u8], place: usize) -> usize {
    let (own, other) = (as_it_stands(ring).len(), recording.len());
    if place == own.min(other) {
        own.max(other)
    } else {
        place
    }
}

fn from_the_first_event(_: &[u8], _: &[u8], place: usize) -> usize {
    place.saturating_sub(OPENING)
}

fn position(ring: &[u8], _: &[u8], place: usize) -> usize {
    tail(ring) as usize + place.saturating_sub(OPENING)
}

/// As the reader of recordings names the place of a fault.
fn start_of_part(ring: &[u8], _: &[u8], place: usize) -> usize {
    let begins = |position: u64| OPENING + (position - tail(ring)) as usize;
    let parts = starts(ring).into_iter().chain([write(ring)]).map(begins);
    parts.filter(|start| *start <= place).last().unwrap_or(0)
}

/// Of the bytes that both have; the shorter length if they have none that differs.
fn last_place(ring: &[u8], recording: &[u8], place: usize) -> usize {
    let own = as_it_stands(ring);
    let both_have = own.len().min(recording.len());
    (place..both_have).rev().find(|place| own[*place] != recording[*place]).unwrap_or(both_have)
}

fn shorter_length(ring: &[u8], recording: &[u8], place: usize) -> usize {
    let (own, other) = (as_it_stands(ring).len(), recording.len());
    if own == other {
        place
    } else {
        own.min(other)
    }
}
