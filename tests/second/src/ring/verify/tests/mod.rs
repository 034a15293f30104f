//! Verify: the place that is named, the lengths, the refusals, and that what `record` gives passes and nothing else does.

mod by_hand;
mod large;
mod lengths;
mod passes;
mod places;
mod refusals;

use crate::ring::*;

const MAX: u64 = u64::MAX;

fn fresh(capacity: usize, cpu_id: u16) -> Vec<u8> {
    let mut ring = vec![0xFF; PAGES + capacity];
    create(&mut ring, cpu_id).unwrap();
    ring
}

/// Emissions with these payloads, one after the other, on a fresh ring. The bytes of each differ from those of the others.
fn lived(capacity: usize, cpu_id: u16, payloads: &[usize]) -> Vec<u8> {
    let (mut ring, mut writer) = (fresh(capacity, cpu_id), Writer::default());
    for (turn, length) in payloads.iter().enumerate() {
        let payload: Vec<u8> = (0..*length).map(|step| (step * 7 + turn * 31 + 1) as u8).collect();
        let event = NewEvent { timestamp: 0x0605, event_type: 0x0807, origin_class: 9, payload: &payload };
        writer = emit(&mut ring, writer, &event).unwrap().1;
    }
    ring
}

/// The sums' ring of line 4: events 6 and 7 are kept, and 7 goes over the data's end, with 96 bytes before it.
fn wrapped() -> Vec<u8> {
    lived(256, 3, &[32, 32, 32, 32, 0, 96, 96])
}

/// With its sequences raised, so that every byte of missed is at work.
fn high_sequences() -> Vec<u8> {
    let mut ring = lived(256, 0xABCD, &[5, 6]);
    for (at, sequence) in [(0, MAX - 5), (37, MAX)] {
        ring[PAGES + at + 8..PAGES + at + 16].copy_from_slice(&sequence.to_le_bytes());
    }
    ring
}

fn set_word(ring: &mut [u8], offset: usize, value: u64) {
    ring[offset..offset + 8].copy_from_slice(&value.to_le_bytes());
}

/// Emptied by hand, far from position 0 and with old bytes in the data region.
fn emptied() -> Vec<u8> {
    let mut ring = wrapped();
    set_word(&mut ring, 72, 544);
    ring
}

/// Sound ones of every kind: without events, with one, over the data's end, full, after drops, with high sequences.
fn rings() -> Vec<Vec<u8>> {
    vec![
        fresh(256, 3),
        emptied(),
        lived(256, 0x0102, &[1]),
        wrapped(),
        lived(256, 0xFF00, &[96, 96]),
        lived(512, 7, &[225, 3, 225, 225, 10, 225]),
        lived(256, 0x8001, &[77, 77, 77, 13, 0, 33]),
        high_sequences(),
    ]
}

/// What `record` gives in one piece.
fn recorded(ring: &[u8]) -> Vec<u8> {
    let mut recording = vec![0xEE; ring.len()];
    let length = record(ring, 0, &mut recording).unwrap();
    recording.truncate(length);
    recording
}

fn with_byte(recording: &[u8], place: usize, change: u8) -> Vec<u8> {
    let mut altered = recording.to_vec();
    altered[place] ^= change;
    altered
}

fn differs_at(place: usize) -> Result<Verified, Refusal> {
    Ok(Verified::DiffersAt(place))
}

const SAME: Result<Verified, Refusal> = Ok(Verified::Same);
