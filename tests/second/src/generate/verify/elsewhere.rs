//! Two rings that differ in one thing, each beside its own recording and beside the other's.

use super::beside::{lay, Beside};
use super::images::{place, set_at, set_tail_pos, set_word, set_write_pos, stretch};
use super::rings::ring;
use crate::generate::pen::Pen;
use crate::generate::sketch::Sketch;

/// Alters the drawn ring's bytes in one thing; the ring stays sound.
type Change = fn(&mut Vec<u8>, &Sketch);

/// The last four change nothing that is recorded.
const CHANGES: [Change; 14] = [
    |ring, sketch| other_cpu_id(ring, sketch, 12),
    |ring, sketch| other_cpu_id(ring, sketch, 13),
    |ring, sketch| flip(ring, sketch.start(0) + 16),
    |ring, sketch| flip(ring, sketch.start(1) + 24),
    |ring, sketch| flip(ring, sketch.start(2) + 28),
    |ring, sketch| flip(ring, sketch.write_pos() - 1),
    |ring, sketch| set_at(ring, sketch.start(0) + 8, &[6]),
    |ring, sketch| set_at(ring, sketch.start(2) + 8, &[13]),
    |ring, sketch| set_tail_pos(ring, sketch.start(1)),
    |ring, sketch| set_write_pos(ring, sketch.start(2)),
    |ring, _| set_word(ring, 32, 77),
    |ring, _| ring[4096] = 1,
    further_on,
    larger,
];

pub fn write(pen: &mut Pen) {
    for (turn, change) in CHANGES.into_iter().chain(CHANGES).enumerate() {
        let tail_pos = 256 * 3 - 20 * (turn as u64 % 6);
        let sketch = ring(256, 0x0102, tail_pos, &[(37, 7), (34, 8), (43, 12)]);
        two_rings(pen, turn, &sketch, change);
    }
}

/// The other ring, in a third buffer, is laid as bytes.
fn two_rings(pen: &mut Pen, turn: usize, sketch: &Sketch, change: Change) {
    let beside = Beside::of_turn(turn);
    let other = Beside { ring: beside.third(), ..beside };
    let own = beside.drawn(pen, sketch);
    let mut bytes = pen.machine.buffers[beside.ring].clone();
    change(&mut bytes, sketch);
    lay(pen, other.ring, &bytes);
    let others = other.own(pen);
    for recording in [&own, &others] {
        beside.ask(pen, recording);
        other.ask(pen, recording);
    }
}

/// In the page and in each event.
fn other_cpu_id(ring: &mut [u8], sketch: &Sketch, at: usize) {
    ring[at] ^= 0x10;
    let byte = ring[at];
    for index in 0..sketch.events.len() {
        set_at(ring, sketch.start(index) + at as u64 - 6, &[byte]);
    }
}

fn flip(ring: &mut [u8], position: u64) {
    let place = place(ring, position);
    ring[place] ^= 0xFF;
}

/// The same events at other positions.
fn further_on(ring: &mut Vec<u8>, sketch: &Sketch) {
    let events = stretch(ring, sketch.tail_pos, sketch.write_pos());
    set_tail_pos(ring, sketch.tail_pos + 1000);
    set_write_pos(ring, sketch.write_pos() + 1000);
    set_at(ring, sketch.tail_pos + 1000, &events);
}

/// The same events in twice the capacity.
fn larger(ring: &mut Vec<u8>, sketch: &Sketch) {
    let events = stretch(ring, sketch.tail_pos, sketch.write_pos());
    ring.resize(8192 + 512, 0);
    set_word(ring, 16, 512);
    set_at(ring, sketch.tail_pos, &events);
}
