//! Recordings that end sooner or go on longer, and agree up to the end of the shorter.

use super::beside::Beside;
use super::rings::{seams, small, smallest};
use crate::generate::pen::Pen;
use crate::script::LONGEST_BUFFER;

const ROUNDS: usize = 6;

pub fn write(pen: &mut Pen) {
    every_length(pen);
    for round in 0..ROUNDS {
        for (turn, sketch) in smallest().iter().enumerate() {
            let beside = Beside::of_turn(turn + 5 * round);
            let own = beside.drawn(pen, sketch);
            shorter(pen, beside, &own, &seams(sketch));
            longer(pen, beside, &own, round);
        }
    }
}

/// Of a ring without events and of one with one event.
fn every_length(pen: &mut Pen) {
    for (turn, index) in [0, 2].into_iter().enumerate() {
        let beside = Beside::of_turn(turn + 7);
        let own = beside.drawn(pen, &small()[index]);
        for length in 0..=own.len() {
            beside.ask(pen, &own[..length]);
        }
        for more in 1..=9 {
            beside.ask(pen, &[&own[..], &vec![0; more]].concat());
        }
    }
}

/// None, within the opening, the opening alone, within the events, up to the closing, within it, all but the last byte; and up to
/// each seam.
fn shorter(pen: &mut Pen, beside: Beside, own: &[u8], seams: &[usize]) {
    let closing = own.len() - 24;
    let within_opening = 1 + pen.random.below(7) as usize;
    let within_events = 8 + pen.random.below(closing as u64 - 7) as usize;
    let within_closing = closing + 1 + pen.random.below(22) as usize;
    let lengths = [0, within_opening, 8, within_events, closing, within_closing, own.len() - 1];
    for length in lengths.iter().chain(seams) {
        beside.ask(pen, &own[..*length]);
    }
}

/// By one byte, by some, up to the longest that a buffer holds; by zeros, by others, and by the same recording again.
fn longer(pen: &mut Pen, beside: Beside, own: &[u8], round: usize) {
    let byte = pen.random.pick(&[0, 0, 1, 0x53, 0xFF]);
    beside.ask(pen, &[own, &[byte]].concat());
    let count = 2 + pen.random.below(30);
    let some = if round % 2 == 0 { vec![0; count as usize] } else { pen.random.bytes(count) };
    beside.ask(pen, &[own, &some].concat());
    if round == 0 {
        beside.ask(pen, &[own, own].concat());
    }
    let many = [1000, 4096, 32_768, LONGEST_BUFFER - own.len()][round % 4] + round / 4;
    let mut longest = [own, &vec![0; many]].concat();
    longest.truncate(LONGEST_BUFFER);
    *longest.last_mut().unwrap() = byte;
    beside.ask(pen, &longest);
}
