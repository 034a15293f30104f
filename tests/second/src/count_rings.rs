//! What the counts read of a ring that a script is played on.

use crate::count::word;
use crate::script::Machine;

/// The buffer that stands first in the line, empty if none does; a swap's old ring has its events after the call too.
pub fn ring_of<'a>(machine: &'a Machine, line: &[u8]) -> &'a [u8] {
    let buffer: Option<usize> = word(line, 1).parse().ok();
    buffer.and_then(|buffer| machine.buffers.get(buffer)).map_or(&[], Vec::as_slice)
}

pub fn capacity(ring: &[u8]) -> u64 {
    word_at(ring, 16)
}

pub fn write(ring: &[u8]) -> u64 {
    word_at(ring, 64)
}

pub fn tail(ring: &[u8]) -> u64 {
    word_at(ring, 72)
}

/// Bytes by position, over the data's end too.
pub fn data(ring: &[u8], at: u64, count: u64) -> Vec<u8> {
    (at..at + count).map(|position| ring[8192 + (position % capacity(ring)) as usize]).collect()
}

pub fn word_at(bytes: &[u8], at: usize) -> u64 {
    u64::from_le_bytes(bytes[at..at + 8].try_into().unwrap())
}

/// The event_size that a header says.
pub fn size(header: &[u8]) -> u64 {
    u32::from_le_bytes(header[..4].try_into().unwrap()).into()
}
