//! Rings that calls alone have made: after drops, after swaps, with readers at work.

use super::pieces::{every_way, in_large_pieces, in_pieces};
use super::ALL;
use crate::generate::pen::Pen;

pub fn write(pen: &mut Pen) {
    after_drops(pen);
    after_a_swap(pen);
    above_half_the_capacity(pen);
    beside_a_reader(pen);
}

/// Sequences 3, 6 and 7 are kept and one event is overwritten, so missed is above overwritten; number 8 is dropped last.
fn after_drops(pen: &mut Pen) {
    pen.fresh(0, 256, 0xFE01);
    pen.writer(0, 0, 0, 0);
    for payload in [60, 97, 30, 97, 97, 96, 0, 97] {
        pen.emit(0, 0, payload);
    }
    every_way(pen, 0);
}

/// The new ring shows generation 2 and so does the frozen one, whose recording stays what it was.
fn after_a_swap(pen: &mut Pen) {
    pen.say("size 1 8704");
    pen.say("swap 0 1 0");
    in_large_pieces(pen, 1);
    in_pieces(pen, 0, 33);
    for payload in [100, 97, 224, 225, 50] {
        pen.emit(1, 0, payload);
    }
    in_large_pieces(pen, 1);
}

/// A swap brings an event of 192 bytes, and later one of 256 bytes, to a ring of 256.
fn above_half_the_capacity(pen: &mut Pen) {
    pen.fresh(2, 512, 0x7F80);
    pen.writer(1, 0, 0, 0);
    pen.emit(2, 1, 160);
    pen.say("size 3 8448");
    pen.say("swap 2 3 1");
    every_way(pen, 3);
    pen.fresh(2, 512, 0x7F80);
    pen.writer(1, 0, 0, 0);
    pen.emit(2, 1, 0);
    pen.emit(2, 1, 224);
    pen.say("swap 2 3 1");
    in_large_pieces(pen, 3);
}

/// A reader's own place is no part of the recording, and recording doesn't move it.
fn beside_a_reader(pen: &mut Pen) {
    pen.fresh(0, 512, 6);
    pen.writer(2, 0, 0, 0);
    pen.say("attach 0 2");
    for payload in [40, 0, 21, 7] {
        pen.emit(0, 2, payload);
        pen.read(0, 2, ALL);
        pen.record(0, 0, ALL);
        pen.read(0, 2, ALL);
        pen.say("outsum");
    }
    pen.say("inspect 0");
    pen.sum(0);
}
