//! Rings of many small events, and a reader anywhere in them: after some emissions between a copy and its confirm the event is
//! still there, or just not.

use super::rings::{empty, ALL, HEADER};
use crate::generate::pen::Pen;

const TRIALS: usize = 55;

pub fn write(pen: &mut Pen) {
    for capacity in [256, 512, 512, 1024] {
        let position = pen.random.below(1 << 40);
        empty(pen, 0, capacity, position, 0);
        let mut starts = Vec::new();
        while pen.tail_pos(0) == position {
            emission(pen, &mut starts);
        }
        for _ in 0..TRIALS {
            one_trial(pen, &mut starts);
        }
        pen.sum(0);
    }
}

/// Where each event begins is kept, by its sequence.
fn emission(pen: &mut Pen, starts: &mut Vec<u64>) {
    starts.push(pen.write_pos(0));
    let payload = pen.random.below(6);
    pen.emit_noise(0, 0, payload);
}

/// The record is that of a reader which was handed every event before.
fn one_trial(pen: &mut Pen, starts: &mut Vec<u64>) {
    let oldest = starts.iter().position(|start| *start == pen.tail_pos(0)).unwrap();
    let next = oldest + pen.random.below((starts.len() - oldest) as u64) as usize;
    pen.reader(0, starts[next], next as u64, next as u64, 1);
    pen.copy(0, 0, 0, HEADER + 5);
    for _ in 0..pen.random.pick(&[1, 2, 2, 3, 3, 3, 4, 6]) {
        emission(pen, starts);
    }
    let answer = pen.confirm(0, 0, 0);
    if answer.starts_with("again") {
        pen.copy(0, 0, 0, ALL);
        pen.confirm(0, 0, 0);
    }
}
