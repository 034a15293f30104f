//! Several faults at once: more than one reason in a header, and two bad events behind each other. The recording matters to none.

use super::beside::{lay, Beside};
use super::images::spoil;
use super::rings::ring;
use crate::generate::pen::Pen;
use crate::generate::reasons::together::choices;
use crate::generate::sketch::Sketch;

const EVENTS: usize = 3;

pub fn write(pen: &mut Pen) {
    for index in 0..EVENTS {
        let sketch = ring(256, 0x0102, 256 * 4 - 90 + 40 * index as u64, &[(34, 7), (33, 8), (38, 12)]);
        let beside = Beside::of_turn(1 + 3 * index);
        let own = beside.drawn(pen, &sketch);
        for reasons in (2..=6).flat_map(choices) {
            let faults: Vec<(usize, u8)> = reasons.into_iter().map(|reason| (index, reason)).collect();
            one_ring(pen, beside, &sketch, &own, &faults);
        }
    }
    two_events(pen);
}

/// The first is told with its own reason, be the second one's number lower. Number 1 holds only in the last that is met.
fn two_events(pen: &mut Pen) {
    let sketch = ring(512, 0x0102, 512 * 3 - 71, &[(36, 20), (35, 21), (33, 22)]);
    let beside = Beside::of_turn(6);
    let own = beside.drawn(pen, &sketch);
    for first in 2..=7 {
        for second in (1..=7).filter(|second| *second != first) {
            one_ring(pen, beside, &sketch, &own, &[(1, first), (2, second)]);
        }
    }
}

/// Faults by event and reason. The ring is sound again afterwards.
fn one_ring(pen: &mut Pen, beside: Beside, sketch: &Sketch, own: &[u8], faults: &[(usize, u8)]) {
    let sound = pen.machine.buffers[beside.ring].clone();
    let mut ring = sound.clone();
    for (index, reason) in faults {
        spoil(pen, &mut ring, sketch, *index, *reason);
    }
    lay(pen, beside.ring, &ring);
    let place = pen.random.below(own.len() as u64) as usize;
    beside.ask(pen, own);
    beside.ask_with_byte(pen, own, place, 2);
    beside.ask_with_byte(pen, own, 0, 0x20);
    beside.ask(pen, own);
    lay(pen, beside.ring, &sound);
}
