//! Events over the data's end, copied and confirmed: with each number of their bytes before it up to 33.

use super::rings::{empty, ALL, HEADER};
use crate::generate::pen::Pen;

const ROUNDS: usize = 10;

pub fn write(pen: &mut Pen) {
    for _ in 0..ROUNDS {
        let capacity = pen.random.pick(&[256, 256, 512, 1024]);
        empty(pen, 0, capacity, 0, 0);
        for before_end in 1..=HEADER + 1 {
            one_event(pen, capacity, before_end);
        }
        pen.sum(0);
        pen.say("outsum");
    }
}

/// A filler leads to the event's place, over which the tail has come by the next one.
fn one_event(pen: &mut Pen, capacity: u64, before_end: u64) {
    let aim = (pen.write_pos(0) / capacity + 2) * capacity - before_end;
    while pen.write_pos(0) + capacity / 2 + HEADER <= aim {
        pen.emit_zeros(0, 0, capacity / 2 - HEADER);
    }
    let left = aim - pen.write_pos(0);
    for size in if left > capacity / 2 { vec![left / 2, left - left / 2] } else { vec![left] } {
        pen.emit_zeros(0, 0, size - HEADER);
    }
    let size = HEADER.max(before_end + 1) + pen.random.below(12);
    // Two stretches of one length could be exchanged and nothing would show it.
    let size = size + u64::from(size == 2 * before_end);
    let last = pen.machine.writers[0].last;
    pen.emit_noise(0, 0, size - HEADER);
    pen.reader(0, aim, last, 0, 1);
    let lent = pen.random.pick(&[size, size + 1, ALL]);
    pen.copy(0, 0, 0, lent);
    pen.confirm(0, 0, 0);
}
