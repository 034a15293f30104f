//! Sequences that don't rise. Reading looks at the reader's last one, other calls at the event before, an emission at none.

use super::calls::{largest_emission, looks, sums, ALL};
use super::rings::{before, draw, readers_at, three_events, EVENTS};
use crate::generate::calls::READS;
use crate::generate::pen::Pen;
use crate::generate::sketch::Sketch;

const MAX: u64 = u64::MAX;

/// A sequence, and one behind it that isn't above it.
const NOT_RISING: [(u64, u64); 10] =
    [(7, 7), (7, 6), (7, 0), (2, 1), (256, 255), (1 << 32, 1), (1 << 63, (1 << 63) - 1), (MAX, MAX), (MAX, MAX - 1), (MAX, 0)];

pub fn write(pen: &mut Pen) {
    one_ring(pen, [0, 1, 2], 0);
    for (before, sequence) in NOT_RISING {
        one_ring(pen, [before, sequence, MAX], 1);
        one_ring(pen, [1, before, sequence], 2);
    }
    for index in 0..EVENTS {
        one_ring(pen, [7, 8, 12], index);
    }
}

/// With readers at the event of a given index, which rises or not.
fn one_ring(pen: &mut Pen, sequences: [u64; 3], index: usize) {
    let tail_pos = pen.random.below(5000);
    let mut sketch = three_events(256, tail_pos);
    for (event, sequence) in sketch.events.iter_mut().zip(sequences) {
        event.1 = sequence;
    }
    draw(pen, &sketch);
    readers_at(pen, &sketch, index);
    let inspected = looks(pen);
    reads(pen, &sketch, index, sequences[index]);
    sums(pen);
    if inspected.ends_with(" why 7") {
        largest_emission(pen, 256);
        pen.sum(0);
    }
}

/// By readers whose last sequence is the event's own, one above it, the highest, and the one below, with which it is handed out.
fn reads(pen: &mut Pen, sketch: &Sketch, index: usize, sequence: u64) {
    let handed = before(sketch, index).min(1);
    for last in [sequence, sequence.saturating_add(1), MAX, sequence.saturating_sub(1)] {
        pen.reader(READS, sketch.start(index), last, handed.min(last), 1);
        pen.read(0, READS, ALL);
    }
}
