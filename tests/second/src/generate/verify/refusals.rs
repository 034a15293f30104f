//! Refusals 1 to 6, alone and with others that are asked later, beside the recording that the ring gave when it was sound and
//! beside others. None of them matters.

use super::beside::{lay, Beside};
use super::images::{set_at, set_word};
use super::rings::ring;
use crate::generate::pen::Pen;
use crate::generate::sketch::Sketch;
use crate::ring::HIGHEST_POSITION;

const CASES: usize = 24;

pub fn write(pen: &mut Pen) {
    let sketch = ring(256, 0x0102, 600, &[(33, 2), (35, 3), (41, 9)]);
    let own = Beside::of_turn(0).drawn(pen, &sketch);
    let sound = pen.machine.buffers[0].clone();
    for first in 1..=6 {
        for case in 0..CASES {
            let beside = Beside::of_turn(usize::from(first) + case / 3);
            let mut ring = sound.clone();
            for number in numbers(pen, first, case % 3 == 0) {
                harm(pen, &mut ring, &sketch, number);
            }
            lay(pen, beside.ring, &ring);
            whatever(pen, beside, &own, case);
        }
    }
}

/// The one asked first comes last, since 1 leaves little of the ring. Of the others each in about half of the cases, if any.
fn numbers(pen: &mut Pen, first: u8, alone: bool) -> Vec<u8> {
    let later = (first + 1..=6).chain([10]).rev();
    let mut numbers: Vec<u8> = later.filter(|_| !alone && pen.random.one_in(2)).collect();
    numbers.push(first);
    numbers
}

fn harm(pen: &mut Pen, ring: &mut Vec<u8>, sketch: &Sketch, number: u8) {
    match number {
        1 => ring.truncate(pen.random.pick(&[0, 1, 100, 191, 192, 4097, 8192, 8447])),
        2 => ring[pen.random.below(8) as usize] ^= 0x20,
        3 => ring[8 + pen.random.below(4) as usize] ^= 2,
        4 => {
            let places = [(17, 3), (24, 1), (32, 0), (14, 1), (15, 1), (40, 1), (63, 1), (80, 1), (127, 1), (132, 1), (191, 1)];
            let (at, byte) = pen.random.pick(&places);
            ring[at] = byte;
        }
        5 if pen.random.one_in(3) => set_word(ring, 16, pen.random.pick(&[512, 32_768, 1_048_576])),
        5 => ring.resize(pen.random.pick(&[8449, 8479, 8704, 40_960]), 0),
        6 => {
            let positions = [(64, 0), (64, 599), (72, 0), (72, 452), (72, 710), (64, HIGHEST_POSITION + 1), (72, u64::MAX)];
            let (at, value) = pen.random.pick(&positions);
            set_word(ring, at, value);
        }
        _ if pen.random.one_in(2) => set_at(ring, sketch.start(1) + 4, &[33]),
        _ => set_at(ring, sketch.start(2) + 8, &[1]),
    }
}

/// The sound ring's own comes between those that differ in one byte; then, each third time, one of another length.
fn whatever(pen: &mut Pen, beside: Beside, own: &[u8], case: usize) {
    let (any, last) = (pen.random.below(own.len() as u64) as usize, own.len() - 1);
    for place in [0, any, last] {
        beside.ask(pen, own);
        beside.ask_with_byte(pen, own, place, 0x20);
    }
    let other = match case {
        2 => Vec::new(),
        5 => own[..8].to_vec(),
        8 => own[..last].to_vec(),
        11 => [own, &[0]].concat(),
        14 => pen.random.bytes(40),
        17 => own[8..].to_vec(),
        20 => own[..1].to_vec(),
        23 => [own, own].concat(),
        _ => return,
    };
    beside.ask(pen, &other);
}
