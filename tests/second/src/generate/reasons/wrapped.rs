//! Headers over the data's end, after each of their bytes, with each reason.

use super::bad::{with_reasons, HEADER};
use super::rings::{draw, near_the_end, readers_at, EVENTS};
use super::together::choices;
use crate::generate::pen::Pen;
use crate::generate::sketch::Sketch;

const LAPS: [u64; 3] = [4, 1 << 20, 1 << 51];

pub fn write(pen: &mut Pen) {
    for before_end in 1..HEADER {
        let turn = before_end as usize;
        let capacity = if turn % 8 == 0 { 1024 } else { 256 };
        let index = turn % EVENTS;
        let sketch = near_the_end(capacity, index, before_end, LAPS[turn / EVENTS % LAPS.len()]);
        draw(pen, &sketch);
        readers_at(pen, &sketch, index);
        for first in 2..=7 {
            one_header(pen, &sketch, index, first, turn);
        }
    }
}

/// By turns with the one reason alone and with others behind it; behind 7 there is none.
fn one_header(pen: &mut Pen, sketch: &Sketch, index: usize, first: u8, turn: usize) {
    let (alone, choices) = (vec![first], choices(first));
    let with_others = choices.iter().cycle().nth(turn / 2);
    let reasons = if turn % 2 == 0 { &alone } else { with_others.unwrap_or(&alone) };
    with_reasons(pen, sketch, index, reasons).tried(pen);
}
