//! A ring's recording, and the first place where two differ, by the counts' own reading of the bytes.

use crate::count_rings::{data, size, tail, word_at, write};

pub const OPENING: usize = 8;
pub const CLOSING: usize = 24;

/// Of a ring that passes 1 to 6, as its bytes stand: the events are walked by their sizes alone, and nothing else is asked of them.
pub fn as_it_stands(ring: &[u8]) -> Vec<u8> {
    let headers: Vec<Vec<u8>> = starts(ring).into_iter().map(|at| data(ring, at, 32)).collect();
    let handed = headers.len() as u64;
    let last = headers.last().map_or(0, |header| word_at(header, 8));
    let opening = [b'S', b'P', b'L', 1, 0, ring[12], ring[13], 0];
    let events = data(ring, tail(ring), write(ring) - tail(ring));
    let counts = [[0; 8], handed.to_le_bytes(), last.wrapping_sub(handed).to_le_bytes()].concat();
    [&opening[..], &events, &counts].concat()
}

/// The positions where events begin, up to a size that no event has.
pub fn starts(ring: &[u8]) -> Vec<u64> {
    let (mut at, mut starts) = (tail(ring), Vec::new());
    while at < write(ring) {
        starts.push(at);
        match size(&data(ring, at, 4)) {
            0..=31 => break,
            size => at += size,
        }
    }
    starts
}

/// How many bytes are the same from the first one on.
pub fn agreed(one: &[u8], other: &[u8]) -> usize {
    one.iter().zip(other).take_while(|(one, other)| one == other).count()
}
