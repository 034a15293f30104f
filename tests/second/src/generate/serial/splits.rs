//! Openings, headers and closings that arrive in two pieces, split after each number of bytes.

use super::cuts::at_places;
use super::recording::Recording;
use crate::generate::pen::Pen;

const ROUNDS: usize = 4;

pub fn write(pen: &mut Pen) {
    for round in 0..ROUNDS {
        for bytes in 1..=31 {
            every_part(pen, bytes, round * 31 + bytes);
        }
        for bytes in 1..=23 {
            closing_alone(pen, bytes);
        }
    }
}

fn closing_alone(pen: &mut Pen, bytes: usize) {
    let file = Recording::new(pen.random.next() as u16, &[]).bytes(pen);
    at_places(pen, &file, &[8 + bytes]);
}

/// Every header of the file is split after the same number of bytes, so a piece goes from within one to within the next.
fn every_part(pen: &mut Pen, bytes: usize, turn: usize) {
    let sizes: Vec<u64> = (0..4).map(|_| 32 + pen.random.pick(&[0, 0, 1, 7])).collect();
    let recording = Recording::new(pen.random.next() as u16, &sizes);
    let mut places = vec![1 + turn % 7];
    places.extend((0..4).map(|index| recording.start(index) + bytes));
    places.push(recording.closing_start() + 1 + turn % 23);
    let file = recording.bytes(pen);
    at_places(pen, &file, &places);
}
