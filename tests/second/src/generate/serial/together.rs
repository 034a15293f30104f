//! Several faults at once: in one part the first by number counts, in several parts the first by place.

use super::cuts::some_way;
use super::faults::{any_event, counts, header, mark, sequence, sound, spare_of_closing, spare_of_opening, version};
use crate::generate::pen::Pen;

const ROUNDS: usize = 60;

pub fn write(pen: &mut Pen) {
    for turn in 0..3 * ROUNDS {
        in_the_opening(pen, turn);
    }
    for round in 0..ROUNDS {
        in_a_header(pen, round);
        in_the_closing(pen, round);
        anywhere(pen, round);
    }
}

/// Mark, version and spare byte: two of them or all three.
const OF_AN_OPENING: [[bool; 3]; 5] =
    [[true, true, false], [true, false, true], [false, true, true], [true, true, true], [false, true, true]];

fn in_the_opening(pen: &mut Pen, turn: usize) {
    let (_, mut file) = sound(pen);
    let [with_mark, with_version, with_spare] = OF_AN_OPENING[turn % 5];
    if with_mark {
        mark(pen, &mut file);
    }
    if with_version {
        version(pen, &mut file);
    }
    if with_spare {
        spare_of_opening(pen, &mut file);
    }
    // The opening and little more: what follows can't matter.
    file.truncate(8 + turn % 12);
    some_way(pen, &file);
}

fn in_a_header(pen: &mut Pen, round: usize) {
    let (recording, mut file) = sound(pen);
    let index = any_event(pen, &recording);
    header(pen, &mut file, &recording, index, round);
    sequence(pen, &mut file, &recording, index);
    some_way(pen, &file);
}

fn in_the_closing(pen: &mut Pen, round: usize) {
    let (recording, mut file) = sound(pen);
    spare_of_closing(pen, &mut file, &recording);
    counts(pen, &mut file, &recording, round);
    some_way(pen, &file);
}

/// A file with a fault in some of its parts, each in about a third of them, and bytes after it or some cut off.
fn anywhere(pen: &mut Pen, round: usize) {
    let (recording, mut file) = sound(pen);
    for index in 0..recording.events.len() {
        match pen.random.below(6) {
            0 => header(pen, &mut file, &recording, index, round),
            1 => sequence(pen, &mut file, &recording, index),
            _ => {}
        }
    }
    match pen.random.below(6) {
        0 => spare_of_closing(pen, &mut file, &recording),
        1 => counts(pen, &mut file, &recording, round),
        _ => {}
    }
    match pen.random.below(3) {
        0 => file.extend_from_slice(&[0, 1]),
        1 => file.truncate(file.len() - 1 - pen.random.below(24) as usize),
        _ => {}
    }
    some_way(pen, &file);
}
