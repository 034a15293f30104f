//! Refusals 1 to 6, alone and with others that are asked later.

use super::ALL;
use crate::generate::pen::Pen;
use crate::generate::sketch::Sketch;
use crate::ring::HIGHEST_POSITION;

const CASES: u64 = 9;

pub fn write(pen: &mut Pen) {
    for first in 1..=6 {
        for case in 0..CASES {
            one_case(pen, first, case % 3 == 0);
        }
    }
}

/// Of the others up to 6, and of a damaged event, each in about half of the cases where they aren't left out.
fn one_case(pen: &mut Pen, first: u8, alone: bool) {
    let mut numbers = vec![first];
    for later in (first + 1..=6).chain([10]) {
        if !alone && pen.random.one_in(2) {
            numbers.push(later);
        }
    }
    let sketch = Sketch::new(256, 600, &[50, 70, 90]);
    let length = buffer_length(pen, &numbers);
    sketch.draw_in(pen, 0, length);
    for number in numbers {
        harm(pen, &sketch, number);
    }
    places(pen, &sketch);
    pen.sum(0);
}

pub fn buffer_length(pen: &mut Pen, numbers: &[u8]) -> u64 {
    match (numbers.contains(&1), numbers.contains(&5)) {
        (true, _) => pen.random.pick(&[0, 1, 100, 191, 192, 4097, 8192, 8447]),
        (_, true) => pen.random.pick(&[8449, 8479, 8480, 8704, 40_960]),
        _ => 8448,
    }
}

/// Numbers 1 and 5 are in the buffer's length already.
pub fn harm(pen: &mut Pen, sketch: &Sketch, number: u8) {
    match number {
        2 => {
            let at = pen.random.below(8) as usize;
            pen.put(0, at, b"k");
        }
        3 => {
            let at = 8 + pen.random.below(4) as usize;
            pen.put(0, at, &[2]);
        }
        4 => {
            let places = [(17, 3), (24, 1), (32, 0), (14, 1), (15, 1), (40, 1), (63, 1), (80, 1), (127, 1), (132, 1), (191, 1)];
            let (at, byte) = pen.random.pick(&places);
            pen.put(0, at, &[byte]);
        }
        6 => {
            let (at, value) =
                pen.random.pick(&[(64, 0), (64, 599), (72, 0), (72, 553), (64, HIGHEST_POSITION + 1), (72, u64::MAX)]);
            pen.put_word(0, at, value);
        }
        10 => sketch.put_at(pen, 0, sketch.start(1) + 4, &[33]),
        _ => {}
    }
}

/// Inside the recording that the ring would have had, at its length, and above any.
fn places(pen: &mut Pen, sketch: &Sketch) {
    let whole = 8 + sketch.live() + 24;
    let above = [1 << 21, (1 << 32) + 8, 1 << 63, u64::MAX];
    let some = [0, pen.random.below(whole), whole, whole + 1, pen.random.pick(&above), pen.random.pick(&above)];
    for placed in some {
        let lent = pen.random.pick(&[0, 1, 32, ALL, ALL]);
        pen.record(0, placed, lent);
    }
    pen.say("outsum");
}
