//! Slips that are used twice, by another reader or on another ring; and what may change between a copy and its confirm.

use super::rings::{empty, pass_one, ALL};
use crate::generate::pen::Pen;

const ROUNDS: usize = 52;

pub fn write(pen: &mut Pen) {
    for round in 0..ROUNDS {
        two_rings(pen, round);
        twice(pen);
        another_reader(pen);
        another_ring(pen);
        other_calls(pen, round);
        changed(pen);
    }
}

/// Buffer 1 has another capacity, or the same; its positions are near the other's, below them or above.
fn two_rings(pen: &mut Pen, round: usize) {
    let start = pen.random.pick(&[0, 100, 3000, 1 << 40]);
    let other = start + pen.random.pick(&[0, 20, 64, 64, 400]);
    empty(pen, 0, 256, start, round as u64 % 5);
    let (capacity, last) = (pen.random.pick(&[256, 512]), pen.random.below(9));
    empty(pen, 1, capacity, other, last);
    for buffer in [0, 1] {
        for reader in [0, 1] {
            pen.say(format!("attach {buffer} {}", 2 * buffer + reader));
        }
        for _ in 0..5 {
            let payload = pen.random.below(12);
            pen.emit_noise(buffer, buffer, payload);
        }
    }
}

/// The second copy is the first again, since the record stayed; the second confirm is refused.
fn twice(pen: &mut Pen) {
    pen.copy(0, 0, 0, ALL);
    pen.copy(0, 0, 1, ALL);
    for slip in [1, 0, 1] {
        pen.confirm(0, 0, slip);
    }
    pen.copy(0, 0, 0, ALL);
    pen.copy(0, 1, 1, ALL);
    while pen.tail_pos(0) <= pen.machine.slips[0].position && pass_one(pen, 0) {}
    for _ in 0..2 {
        pen.confirm(0, 0, 0);
    }
    pen.say("outsum");
}

/// A slip is good for whoever is at its place or behind, and for nobody further on.
fn another_reader(pen: &mut Pen) {
    for reader in [0, 1] {
        pen.say(format!("attach 0 {reader}"));
    }
    pen.copy(0, 1, 1, ALL);
    pen.copy(0, 0, 0, ALL);
    pen.confirm(0, 0, 0);
    pen.confirm(0, 0, 1);
    pen.copy(0, 0, 2, ALL);
    pen.confirm(0, 1, 2);
    pen.confirm(0, 1, 1);
}

fn another_ring(pen: &mut Pen) {
    pen.say("attach 0 0");
    pen.copy(0, 0, 0, ALL);
    pen.copy(1, 2, 2, ALL);
    for (buffer, reader, slip) in [(1, 0, 0), (1, 2, 0), (0, 0, 2), (0, 2, 2), (1, 3, 0)] {
        pen.confirm(buffer, reader, slip);
    }
    pen.say("attach 1 0");
    pen.confirm(1, 0, 0);
}

/// The same reader is read with, attached or follows in between.
fn other_calls(pen: &mut Pen, round: usize) {
    pen.say("attach 0 0");
    pen.copy(0, 0, 0, ALL);
    match round % 4 {
        0 => drop(pen.read(0, 0, ALL)),
        1 => drop(pen.say("attach 0 0")),
        2 => drop(pen.say("attach 1 0")),
        _ => drop(pen.say("follow 1 0")),
    }
    pen.confirm(0, 0, 0);
    pen.sum(0);
}

/// The generation, a byte of the event, one that nobody looks at: a confirm sees none of them. Of an emission it sees the
/// positions.
fn changed(pen: &mut Pen) {
    pen.say("attach 0 0");
    pen.say("attach 0 1");
    for reader in [0, 1] {
        pen.copy(0, reader, reader, ALL);
    }
    let generation = pen.random.pick(&[2, 3, u64::MAX]);
    pen.put_word(0, 32, generation);
    let at = 8192 + pen.machine.slips[0].position as usize % 256;
    let byte = pen.machine.buffers[0][at] ^ pen.random.pick(&[1, 0x80, 0xFF]);
    pen.put(0, at, &[byte]);
    pen.put(0, 200, &[byte]);
    pen.confirm(0, 0, 0);
    if pen.random.one_in(2) {
        pen.emit_noise(0, 0, 3);
    }
    pen.confirm(0, 1, 1);
    pen.say("outsum");
}
