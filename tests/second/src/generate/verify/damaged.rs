//! Rings with a bad event, for each reason in each event, beside recordings that agree up to the event, differ before it, and end
//! before it.

use super::beside::{lay, Beside};
use super::images::{spoil, stretch, tail_pos, write_pos};
use super::parts::Parts;
use super::rings::ring;
use crate::generate::pen::Pen;
use crate::generate::sketch::Sketch;

/// Bytes from the tail to the data's end: it lies behind all events, within each header, behind a header, at a seam.
const BEFORE_END: [u64; 6] = [200, 13, 60, 75, 101, 33];

pub fn write(pen: &mut Pen) {
    for (turn, before_end) in BEFORE_END.into_iter().enumerate() {
        let capacity = [256, 512][turn % 2];
        let sketch = ring(capacity, 0x0102, capacity * 5 - before_end, &[(33, 7), (36, 8), (35, 12)]);
        for index in 0..sketch.events.len() {
            let beside = Beside::of_turn(turn * 3 + index);
            let own = beside.drawn(pen, &sketch);
            each_reason(pen, beside, &sketch, index, &own);
        }
    }
}

fn each_reason(pen: &mut Pen, beside: Beside, sketch: &Sketch, index: usize, own: &[u8]) {
    let sound = pen.machine.buffers[beside.ring].clone();
    for reason in 1..=7 {
        let mut ring = sound.clone();
        spoil(pen, &mut ring, sketch, index, reason);
        lay(pen, beside.ring, &ring);
        let place = 8 + (sketch.start(index) - sketch.tail_pos) as usize;
        agreeing(pen, beside, &ring, own, index);
        differing_before(pen, beside, own, place);
        ending_before(pen, beside, own, place);
    }
}

/// That of the events before the bad one, with counts that fit; the bytes as they stand; that of the ring when it was sound.
fn agreeing(pen: &mut Pen, beside: Beside, ring: &[u8], own: &[u8], index: usize) {
    let parts = Parts::of(own);
    beside.ask(pen, &parts.with_events(parts.events[..index].to_vec()));
    let bytes = stretch(ring, tail_pos(ring), write_pos(ring));
    beside.ask(pen, &[parts.opening.clone(), bytes, parts.closing()].concat());
    beside.ask(pen, own);
    beside.ask_with_byte(pen, own, own.len() - 1, 1);
    beside.ask(pen, own);
}

fn differing_before(pen: &mut Pen, beside: Beside, own: &[u8], place: usize) {
    let any = pen.random.below(place as u64) as usize;
    for differing in [0, any, place - 1] {
        beside.ask_with_byte(pen, own, differing, 0x40);
    }
}

fn ending_before(pen: &mut Pen, beside: Beside, own: &[u8], place: usize) {
    let within_opening = 1 + pen.random.below(7) as usize;
    for length in [0, within_opening, place - 1] {
        beside.ask(pen, &own[..length]);
    }
}
