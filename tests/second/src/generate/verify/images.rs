//! A ring's bytes, to be altered before they are laid into a buffer.

use crate::generate::pen::Pen;
use crate::generate::reasons::bad::{sizes_past, CPU_IDS, HEADER_SIZES, SIZES_UNDER_32, SPARES};
use crate::generate::reasons::rings::before;
use crate::generate::sketch::Sketch;

const PAGES: usize = 8192;
const WRITE_POS: usize = 64;
const TAIL_POS: usize = 72;

pub fn word(ring: &[u8], at: usize) -> u64 {
    u64::from_le_bytes(ring[at..at + 8].try_into().unwrap())
}

pub fn set_word(ring: &mut [u8], at: usize, value: u64) {
    ring[at..at + 8].copy_from_slice(&value.to_le_bytes());
}

pub fn tail_pos(ring: &[u8]) -> u64 {
    word(ring, TAIL_POS)
}

pub fn write_pos(ring: &[u8]) -> u64 {
    word(ring, WRITE_POS)
}

pub fn set_tail_pos(ring: &mut [u8], value: u64) {
    set_word(ring, TAIL_POS, value);
}

pub fn set_write_pos(ring: &mut [u8], value: u64) {
    set_word(ring, WRITE_POS, value);
}

pub fn capacity(ring: &[u8]) -> u64 {
    (ring.len() - PAGES) as u64
}

/// The offset in the buffer of a position.
pub fn place(ring: &[u8], position: u64) -> usize {
    PAGES + (position % capacity(ring)) as usize
}

pub fn set_at(ring: &mut [u8], position: u64, bytes: &[u8]) {
    for (position, byte) in (position..).zip(bytes) {
        let place = place(ring, position);
        ring[place] = *byte;
    }
}

/// From one position to another as they stand, be they events or not.
pub fn stretch(ring: &[u8], from: u64, to: u64) -> Vec<u8> {
    (from..to).map(|position| ring[place(ring, position)]).collect()
}

/// Makes a reason hold at an event, in one of its ways. The cpu_id of the page has to be the one of the bad headers' rings.
pub fn spoil(pen: &mut Pen, ring: &mut [u8], sketch: &Sketch, index: usize, reason: u8) {
    let start = sketch.start(index);
    let room = write_pos(ring) - start;
    let not_above = before(sketch, index);
    match reason {
        1 => set_write_pos(ring, start + 1 + pen.random.below(31)),
        2 => set_at(ring, start + 4, &pen.random.pick(&HEADER_SIZES).to_le_bytes()),
        3 => set_at(ring, start, &pen.random.pick(&SIZES_UNDER_32).to_le_bytes()),
        4 => set_at(ring, start, &pen.random.pick(&sizes_past(room)).to_le_bytes()),
        5 => set_at(ring, start + 6, &pen.random.pick(&CPU_IDS).to_le_bytes()),
        6 => {
            let (offset, byte) = pen.random.pick(&SPARES);
            set_at(ring, start + offset as u64, &[byte]);
        }
        _ => set_at(ring, start + 8, &pen.random.pick(&[not_above, not_above.saturating_sub(1), 0]).to_le_bytes()),
    }
}
