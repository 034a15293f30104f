//! Positions up to 2^62 and sequences up to 2^64 - 1: emissions between copies and confirms until the writer can't go on.

use super::rings::{emptied, empty, ALL, MAX};
use crate::generate::pen::Pen;
use crate::ring::HIGHEST_POSITION;

const RINGS: usize = 26;

pub fn write(pen: &mut Pen) {
    for round in 0..RINGS {
        let capacity = pen.random.pick(&[256, 512]);
        let left = 400 + pen.random.below(400);
        let (position, last) = match round % 3 {
            0 => (HIGHEST_POSITION - left, 5),
            1 => (pen.random.below(999), MAX - 12),
            _ => (HIGHEST_POSITION - left, MAX - 9),
        };
        empty(pen, 0, capacity, position, last);
        one_ring(pen);
    }
}

/// Each of two readers has its own slip. The sequence given last is the highest there is, or the last event ends near 2^62.
fn one_ring(pen: &mut Pen) {
    for reader in [0, 1] {
        pen.say(format!("attach 0 {reader}"));
    }
    let mut answer = String::new();
    while !answer.starts_with("refused") {
        let payload = pen.random.below(40);
        answer = pen.emit_noise(0, 0, payload);
        let reader = pen.random.below(2) as usize;
        if pen.random.one_in(2) {
            pen.copy(0, reader, reader, ALL);
        } else {
            pen.confirm(0, reader, reader);
        }
    }
    for reader in [0, 1] {
        emptied(pen, 0, reader);
        pen.confirm(0, reader, reader);
    }
    pen.sum(0);
}
