//! Too little is compared, or something else.

use super::{compared, Answer, Program};
use crate::count_rings::{capacity, data, tail, word_at, write};
use crate::count_verify::recording::{as_it_stands, starts, CLOSING, OPENING};
use crate::ring::inspect;
use std::ops::Range;

pub const WRONG: [(&str, Program); 11] = [
    ("equal up to the shorter is the same", equal_up_to_the_shorter),
    ("a longer recording is the same", longer_is_the_same),
    ("a shorter recording is the same", shorter_is_the_same),
    ("the opening isn't compared", |ring, recording| all_but(ring, recording, |_| 0..OPENING)),
    ("the events aren't compared", |ring, recording| all_but(ring, recording, |own| OPENING..own.len() - CLOSING)),
    ("the closing isn't compared", |ring, recording| all_but(ring, recording, |own| before_end(own, CLOSING, 0))),
    ("the closing's zeros aren't compared", |ring, recording| all_but(ring, recording, |own| before_end(own, CLOSING, 16))),
    ("the closing's missed isn't compared", |ring, recording| all_but(ring, recording, |own| before_end(own, 8, 0))),
    ("the recording's own counts are believed", |ring, recording| all_but(ring, recording, |own| before_end(own, 16, 0))),
    ("the recording says how many events there are", as_many_as_it_says),
    ("the second stretch begins at the tail again", wrapped_wrongly),
];

fn equal_up_to_the_shorter(ring: &[u8], recording: &[u8]) -> Answer {
    inspect(ring)?;
    let own = as_it_stands(ring);
    let both_have = own.len().min(recording.len());
    Ok(compared(&own[..both_have], &recording[..both_have]))
}

fn longer_is_the_same(ring: &[u8], recording: &[u8]) -> Answer {
    inspect(ring)?;
    let own = as_it_stands(ring);
    Ok(compared(&own, &recording[..own.len().min(recording.len())]))
}

fn shorter_is_the_same(ring: &[u8], recording: &[u8]) -> Answer {
    inspect(ring)?;
    let own = as_it_stands(ring);
    Ok(compared(&own[..own.len().min(recording.len())], recording))
}

/// What stands from so many bytes before the end up to so many before it.
fn before_end(own: &[u8], from: usize, to: usize) -> Range<usize> {
    own.len() - from..own.len() - to
}

/// In one part the recording's bytes are taken for the ring's.
fn all_but(ring: &[u8], recording: &[u8], part: fn(&[u8]) -> Range<usize>) -> Answer {
    inspect(ring)?;
    let mut own = as_it_stands(ring);
    let part = part(&own);
    for place in part.start..part.end.min(recording.len()) {
        own[place] = recording[place];
    }
    Ok(compared(&own, recording))
}

/// As many of the ring's events are compared as the recording's closing counts, with those counts behind them.
fn as_many_as_it_says(ring: &[u8], recording: &[u8]) -> Answer {
    inspect(ring)?;
    let mut own = as_it_stands(ring);
    if let Some(counts) = recording.len().checked_sub(16).map(|place| &recording[place..]) {
        let end = starts(ring).get(word_at(counts, 0) as usize).copied().unwrap_or(write(ring));
        own.truncate(OPENING + (end - tail(ring)) as usize);
        own = [&own[..], &[0; 8], counts].concat();
    }
    Ok(compared(&own, recording))
}

fn wrapped_wrongly(ring: &[u8], recording: &[u8]) -> Answer {
    inspect(ring)?;
    let mut own = as_it_stands(ring);
    let before_end = capacity(ring) - tail(ring) % capacity(ring);
    if let Some(second) = (write(ring) - tail(ring)).checked_sub(before_end) {
        let begins = OPENING + before_end as usize;
        own[begins..begins + second as usize].copy_from_slice(&data(ring, tail(ring), second));
    }
    Ok(compared(&own, recording))
}
