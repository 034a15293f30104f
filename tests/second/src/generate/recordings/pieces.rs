//! One recording cut in different ways.

use super::{length, ALL};
use crate::generate::pen::Pen;

/// One byte; one that divides nothing here; an event header's length and its neighbours.
const SIZES: [u64; 5] = [1, 7, 31, 32, 33];

pub fn every_way(pen: &mut Pen, buffer: usize) {
    for size in SIZES {
        in_pieces(pen, buffer, size);
    }
    in_uneven_pieces(pen, buffer);
    whole_and_in_two(pen, buffer);
}

/// For the many rings that differ little: the small pieces make most of the lines.
pub fn in_large_pieces(pen: &mut Pen, buffer: usize) {
    let size = pen.random.pick(&SIZES[2..]);
    in_pieces(pen, buffer, size);
    whole_and_in_two(pen, buffer);
}

fn whole_and_in_two(pen: &mut Pen, buffer: usize) {
    in_pieces(pen, buffer, ALL);
    in_two(pen, buffer);
    past_the_end(pen, buffer);
    pen.sum(buffer);
}

/// Nothing lent, within the recording and at its end, and one byte above its length.
pub fn past_the_end(pen: &mut Pen, buffer: usize) {
    let whole = length(pen, buffer);
    let within = pen.random.below(whole);
    pen.record(buffer, within, 0);
    pen.record(buffer, whole, 0);
    pen.record(buffer, whole + 1, ALL);
    pen.say("outsum");
}

/// Up to the call that finds nothing left.
pub fn in_pieces(pen: &mut Pen, buffer: usize, lent: u64) {
    let between_sums = if lent == 1 { 20 } else { 5 };
    let mut placed = 0;
    loop {
        let count = pieces_count(&pen.record(buffer, placed, lent));
        if count == 0 || pen.random.one_in(between_sums) {
            pen.say("outsum");
        }
        if count == 0 {
            break;
        }
        placed += count;
    }
}

fn pieces_count(answer: &str) -> u64 {
    let count = answer.strip_prefix("placed ").and_then(|rest| rest.split(' ').next());
    count.map_or(0, |count| count.parse().unwrap())
}

/// Now and then nothing is lent, which isn't the end.
fn in_uneven_pieces(pen: &mut Pen, buffer: usize) {
    let mut placed = 0;
    while placed < length(pen, buffer) {
        let lent = pen.random.pick(&[0, 2, 8, 24, 30, 40, 63, 100]);
        placed += pieces_count(&pen.record(buffer, placed, lent));
    }
    pen.say("outsum");
}

/// Cut behind the opening, before the closing, and where the data region ends or a byte beside it.
fn in_two(pen: &mut Pen, buffer: usize) {
    let whole = length(pen, buffer);
    let capacity = pen.machine.buffers[buffer].len() as u64 - 8192;
    let data_end = 8 + capacity - pen.tail_pos(buffer) % capacity;
    for place in [8, data_end - 1, data_end, data_end + 1, whole - 24] {
        if place < whole {
            pen.record(buffer, 0, place);
            pen.record(buffer, place, ALL);
        }
    }
}
