//! Faults 1 to 6, one to a file.

use super::cuts::{feed, in_random_cuts, some_way};
use super::recording::Recording;
use crate::generate::pen::Pen;

const ROUNDS: usize = 45;

/// Of a header, by which it can be bad.
const FIELDS: usize = 6;

pub fn write(pen: &mut Pen) {
    for round in 0..ROUNDS {
        for number in 1..=6 {
            one_fault(pen, number, round);
        }
    }
    for turn in 0..FIELDS * 24 {
        one_fault(pen, 4, turn);
    }
}

fn one_fault(pen: &mut Pen, number: u8, round: usize) {
    let (recording, mut file) = sound(pen);
    match number {
        1 => mark(pen, &mut file),
        2 => version(pen, &mut file),
        3 if round % 2 == 0 => spare_of_opening(pen, &mut file),
        3 => spare_of_closing(pen, &mut file, &recording),
        4 => {
            let index = any_event(pen, &recording);
            header(pen, &mut file, &recording, index, round);
        }
        5 => {
            let index = any_event(pen, &recording);
            sequence(pen, &mut file, &recording, index);
        }
        _ => counts(pen, &mut file, &recording, round),
    }
    if round % 3 == 0 {
        then_more(pen, &file);
    } else {
        some_way(pen, &file);
    }
}

/// With one event at least.
pub fn sound(pen: &mut Pen) -> (Recording, Vec<u8>) {
    let mut recording = Recording::random(pen, 2);
    let sequence = recording.before(recording.events.len()) + 1;
    recording.events.push((32 + pen.random.below(5), sequence));
    let file = recording.bytes(pen);
    (recording, file)
}

pub fn any_event(pen: &mut Pen, recording: &Recording) -> usize {
    pen.random.below(recording.events.len() as u64) as usize
}

/// After a fault nothing is told: not of what was to come, of nothing, of a sound file, nor at the end.
fn then_more(pen: &mut Pen, file: &[u8]) {
    feed(pen, file);
    feed(pen, &[]);
    let another = Recording::new(3, &[32]).bytes(pen);
    in_random_cuts(pen, &another);
}

pub fn mark(pen: &mut Pen, file: &mut [u8]) {
    let marks = [*b"spl", *b"SPl", *b"sPL", *b"LPS", *b"SP\0", [0; 3], [b'S' + 128, b'P', b'L'], *b"SQL", *b"TPL", *b"PLS"];
    file[..3].copy_from_slice(&pen.random.pick(&marks));
}

/// Among them 256, whose bytes are those of 1 exchanged.
pub fn version(pen: &mut Pen, file: &mut [u8]) {
    let versions: [u16; 8] = [0, 2, 3, 256, 257, 0x8001, 129, u16::MAX];
    file[3..5].copy_from_slice(&pen.random.pick(&versions).to_le_bytes());
}

pub fn spare_of_opening(pen: &mut Pen, file: &mut [u8]) {
    file[7] = pen.random.pick(&[1, 2, 32, 128, 255]);
}

/// Any of the four bytes after those that tell the closing. Some would be a header's: its size, and the opening's cpu_id.
pub fn spare_of_closing(pen: &mut Pen, file: &mut [u8], recording: &Recording) {
    let [low, high] = recording.cpu_id.to_le_bytes();
    let one = 1 << pen.random.below(32) as u32;
    let like_a_header = [32, 0, low, high];
    let spare = pen.random.pick(&[u32::to_le_bytes(one), u32::to_le_bytes(one), like_a_header, [255; 4]]);
    let at = recording.closing_start() + 4;
    file[at..at + 4].copy_from_slice(&spare);
}

/// By turns: event_size, header_size, cpu_id, the three spare bytes.
pub fn header(pen: &mut Pen, file: &mut [u8], recording: &Recording, index: usize, turn: usize) {
    let at = recording.start(index);
    match turn % FIELDS {
        0 => file[at..at + 4].copy_from_slice(&(1 + pen.random.below(31) as u32).to_le_bytes()),
        1 => {
            let header_size: u16 = pen.random.pick(&[0, 31, 33, 64, 288, 0x2000, u16::MAX]);
            file[at + 4..at + 6].copy_from_slice(&header_size.to_le_bytes());
        }
        2 => {
            let near = recording.cpu_id ^ 1 << pen.random.below(16);
            file[at + 6..at + 8].copy_from_slice(&near.to_le_bytes());
        }
        spare => file[at + 26 + spare] = pen.random.pick(&[1, 32, 128, 255]),
    }
}

/// At most the one before; for the first event that is 0.
pub fn sequence(pen: &mut Pen, file: &mut [u8], recording: &Recording, index: usize) {
    let before = recording.before(index);
    let any = pen.random.below(before + 1);
    let sequence = pen.random.pick(&[before, before, before.saturating_sub(1), before >> 8, 0, any]);
    let at = recording.start(index) + 8;
    file[at..at + 8].copy_from_slice(&sequence.to_le_bytes());
}

/// One count alone, both with the same sum, both exchanged by place, and the bytes in the other order.
pub fn counts(pen: &mut Pen, file: &mut [u8], recording: &Recording, turn: usize) {
    let handed = recording.events.len() as u64;
    let missed = recording.before(recording.events.len()) - handed;
    let bit = 1 << pen.random.below(64);
    let (handed, missed) = match turn % 8 {
        0 => (handed + 1, missed),
        1 => (handed - 1, missed),
        2 => (handed, missed + 1),
        3 => (handed - 1, missed + 1),
        4 => (handed ^ bit, missed),
        5 => (handed, missed ^ bit),
        6 => (handed.swap_bytes(), missed),
        _ => (0, u64::MAX),
    };
    let at = recording.closing_start() + 8;
    file[at..at + 16].copy_from_slice(&[handed.to_le_bytes(), missed.to_le_bytes()].concat());
}
