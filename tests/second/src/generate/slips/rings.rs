//! Rings to copy from, and the calls in the numbers they are given.

use crate::generate::pen::Pen;
use crate::ring::{Reader, Slip};

/// As much as can be lent.
pub const ALL: u64 = 40_960;
pub const HEADER: u64 = 32;
pub const MAX: u64 = u64::MAX;

/// Empty, with both positions and the last sequence as given. The writer's record has the buffer's number.
pub fn empty(pen: &mut Pen, buffer: usize, capacity: u64, position: u64, last: u64) {
    let cpu_id = pen.random.pick(&[0, 3, 0x0102, 0xA55A]);
    pen.fresh(buffer, capacity, cpu_id);
    positions(pen, buffer, position, position);
    pen.writer(buffer, last, 0, last);
}

pub fn positions(pen: &mut Pen, buffer: usize, tail: u64, write: u64) {
    pen.put(buffer, 64, &[write.to_le_bytes(), tail.to_le_bytes()].concat());
}

/// The event_size that stands at a position.
pub fn size_at(pen: &Pen, buffer: usize, position: u64) -> u64 {
    let ring = &pen.machine.buffers[buffer];
    let capacity = ring.len() as u64 - 8192;
    let byte = |step: u64| u64::from(ring[8192 + ((position + step) % capacity) as usize]);
    (0..4).map(|step| byte(step) << (8 * step)).sum()
}

/// One emission that passes exactly the oldest event; if more than half the capacity is free, one before it that passes none.
/// Answers whether the writer could go on.
pub fn pass_one(pen: &mut Pen, buffer: usize) -> bool {
    let half = (pen.machine.buffers[buffer].len() as u64 - 8192) / 2;
    let free = |pen: &Pen| 2 * half - (pen.write_pos(buffer) - pen.tail_pos(buffer));
    if free(pen) >= half {
        pen.emit(buffer, buffer, half - HEADER);
    }
    let (free, oldest) = (free(pen), size_at(pen, buffer, pen.tail_pos(buffer)));
    let least = HEADER.max(free + 1);
    let most = half.min(free + oldest).min(least + 8);
    let size = least + pen.random.below(most - least + 1);
    !pen.emit(buffer, buffer, size - HEADER).starts_with("refused")
}

pub fn pass_up_to(pen: &mut Pen, buffer: usize, tail: u64) {
    while pen.tail_pos(buffer) < tail && pass_one(pen, buffer) {}
}

/// Said only if it isn't the record already.
pub fn set_reader(pen: &mut Pen, index: usize, reader: Reader) {
    if pen.machine.readers[index] != reader {
        pen.reader(index, reader.read_pos, reader.last, reader.handed, reader.generation);
    }
}

pub fn set_slip(pen: &mut Pen, index: usize, slip: Slip) {
    if pen.machine.slips[index] != slip {
        pen.slip(index, slip.position, slip.size, slip.sequence, slip.tail_seen);
    }
}

/// Copies and confirms until no event comes. Answers the last copy's answer.
pub fn emptied(pen: &mut Pen, buffer: usize, reader: usize) -> String {
    let mut answer = pen.copy(buffer, reader, reader, ALL);
    while answer.starts_with("event") {
        pen.confirm(buffer, reader, reader);
        answer = pen.copy(buffer, reader, reader, ALL);
    }
    answer
}
