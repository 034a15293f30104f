//! Copy and confirm: at once they are read, each by the request's sentences, and over lives with emissions in between.

mod by_hand;
mod life;
mod numbers;
mod pair;
mod payload;

use crate::ring::*;

fn word(ring: &[u8], offset: usize) -> u64 {
    u64::from_le_bytes(ring[offset..offset + 8].try_into().unwrap())
}

fn set_word(ring: &mut [u8], offset: usize, value: u64) {
    ring[offset..offset + 8].copy_from_slice(&value.to_le_bytes());
}

fn write_pos(ring: &[u8]) -> u64 {
    word(ring, 64)
}

fn tail_pos(ring: &[u8]) -> u64 {
    word(ring, 72)
}

fn fresh(capacity: usize) -> Vec<u8> {
    let mut ring = vec![0xEE; PAGES + capacity];
    create(&mut ring, 3).unwrap();
    ring
}

/// Positions alone: what stands in the data region isn't an event.
fn with_positions(capacity: usize, tail: u64, write: u64) -> Vec<u8> {
    let mut ring = fresh(capacity);
    ring[PAGES..].fill(0xEE);
    set_word(&mut ring, 64, write);
    set_word(&mut ring, 72, tail);
    ring
}

/// Any event of cpu 3, as its bytes stand in a ring.
fn encoded(sequence: u64, payload: &[u8]) -> Vec<u8> {
    let size = 32 + payload.len() as u32;
    let rest = [5, 6, 0, 0, 0, 0, 0, 0, 7, 8, 0, 0, 9, 0, 0, 0];
    [&size.to_le_bytes()[..], &[32, 0, 3, 0], &sequence.to_le_bytes(), &rest, payload].concat()
}

/// Emits what `encoded` shows.
fn emit_encoded(ring: &mut [u8], writer: Writer, payload: &[u8]) -> (Emitted, Writer) {
    let new = NewEvent { timestamp: 0x0605, event_type: 0x0807, origin_class: 9, payload };
    emit(ring, writer, &new).unwrap()
}

fn slip_of(answer: Copied) -> Slip {
    match answer {
        Copied::Event(slip) => slip,
        other => panic!("no event: {other:?}"),
    }
}
