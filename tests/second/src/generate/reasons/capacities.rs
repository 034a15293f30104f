//! Other capacities, and positions as high as an emission may be.

use super::bad::with_reasons;
use super::rings::{draw, readers_at, three_events, EVENTS};
use crate::generate::pen::Pen;
use crate::generate::sketch::Sketch;
use crate::ring::HIGHEST_POSITION;

pub fn write(pen: &mut Pen) {
    for capacity in [512, 2048, 32_768] {
        every_reason(pen, &three_events(capacity, capacity * 3 + 100));
    }
    let live = three_events(256, 0).live();
    every_reason(pen, &three_events(256, HIGHEST_POSITION - 256 / 2 - live));
}

/// In each event two reasons alone, and one with all that can hold behind it.
const REASONS: [[&[u8]; 3]; EVENTS] = [[&[2], &[5], &[2, 3, 5, 6, 7]], [&[3], &[6], &[4, 5, 6, 7]], [&[4], &[7], &[5, 6, 7]]];

fn every_reason(pen: &mut Pen, sketch: &Sketch) {
    draw(pen, sketch);
    for (index, choices) in REASONS.into_iter().enumerate() {
        readers_at(pen, sketch, index);
        for reasons in choices {
            with_reasons(pen, sketch, index, reasons).tried(pen);
        }
    }
}
