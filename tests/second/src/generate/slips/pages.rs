//! Refusals 1 to 6 of copies and confirms: alone, with others that are asked later, and with slips and records that 13 refuses.

use super::rings::{set_reader, set_slip, ALL, MAX};
use crate::generate::pen::Pen;
use crate::generate::recordings::refusals::{buffer_length, harm};
use crate::generate::sketch::Sketch;
use crate::ring::{Reader, Slip};

const CASES: u64 = 18;

/// Fit for the ring before it is harmed: the second of its events.
const READER: Reader = Reader { read_pos: 650, last: 1, handed: 1, generation: 1 };
const SLIP: Slip = Slip { position: 650, size: 70, sequence: 2, tail_seen: 600 };

pub fn write(pen: &mut Pen) {
    for first in 1..=6 {
        for case in 0..CASES {
            one_case(pen, first, case % 3 != 0);
        }
    }
}

fn one_case(pen: &mut Pen, first: u8, alone: bool) {
    let mut numbers = vec![first];
    for later in (first + 1..=6).chain([10]) {
        if !alone && pen.random.one_in(2) {
            numbers.push(later);
        }
    }
    let sketch = Sketch::new(256, 600, &[50, 70, 90]);
    let length = buffer_length(pen, &numbers);
    sketch.draw_in(pen, 0, length);
    for number in numbers {
        harm(pen, &sketch, number);
    }
    calls(pen);
    if pen.random.one_in(3) {
        pen.sum(0);
        pen.say("outsum");
    }
}

/// Slip 0 is sound for reader 0; slips 1 to 3 and reader 1 are wrong.
fn calls(pen: &mut Pen) {
    set_reader(pen, 0, READER);
    set_slip(pen, 0, SLIP);
    let absurd = [
        Reader { handed: 2, ..READER },
        Reader { read_pos: 811, ..READER },
        Reader { read_pos: MAX, last: 0, handed: MAX, generation: 0 },
    ];
    let absurd = pen.random.pick(&absurd);
    set_reader(pen, 1, absurd);
    for (slip, numbers) in wrong_slips(pen).into_iter().enumerate() {
        set_slip(pen, 1 + slip, numbers);
    }
    for reader in [0, 0, 1] {
        let lent = pen.random.pick(&[0, 69, ALL]);
        pen.copy(0, reader, 0, lent);
    }
    for (reader, slip) in [(0, 0), (0, 1), (0, 0), (0, 2), (0, 0), (0, 3), (0, 0), (1, 0), (1, 1)] {
        pen.confirm(0, reader, slip);
    }
}

fn wrong_slips(pen: &mut Pen) -> [Slip; 3] {
    let sequence = pen.random.below(2);
    let size = pen.random.pick(&[0, 31, 161, MAX, MAX - 649, MAX - 600]);
    [Slip { position: 649, ..SLIP }, Slip { size, ..SLIP }, Slip { sequence, ..SLIP }]
}
