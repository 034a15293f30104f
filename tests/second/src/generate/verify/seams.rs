//! Where one event ends and the next begins: the first bytes and the last one of each, and recordings that end there.

use super::beside::Beside;
use super::rings::{seams, small};
use crate::generate::pen::Pen;
use crate::generate::sketch::Sketch;

/// Of those that end at a seam, for the room that they take in a script.
const LONGEST: usize = 150;

const CHANGES: [u8; 5] = [1, 4, 0x40, 0x80, 0xFF];

pub fn write(pen: &mut Pen) {
    for (turn, sketch) in small().iter().enumerate() {
        let beside = Beside::of_turn(turn + 8);
        let own = beside.drawn(pen, sketch);
        for index in 0..sketch.events.len() {
            one_event(pen, beside, sketch, &own, index);
        }
        for seam in seams(sketch).into_iter().filter(|seam| *seam < LONGEST) {
            beside.ask(pen, &own[..seam]);
        }
        beside.ask(pen, &own);
    }
}

/// The first event's first byte with more values: it is the first behind the opening too.
fn one_event(pen: &mut Pen, beside: Beside, sketch: &Sketch, own: &[u8], index: usize) {
    let first = 8 + (sketch.start(index) - sketch.tail_pos) as usize;
    let last = first + sketch.events[index].0 as usize - 1;
    for change in &CHANGES[..if index == 0 { 5 } else { 2 }] {
        beside.ask_with_byte(pen, own, first, *change);
    }
    let change = pen.random.pick(&CHANGES);
    beside.ask_with_byte(pen, own, first + 1, change);
    for change in [1, 0x80] {
        beside.ask_with_byte(pen, own, last, change);
    }
}
