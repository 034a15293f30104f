//! The records: absurd ones, ones that disagree with the ring, sequences near 2^64.

use crate::generate::calls::{set_readers, Calls, FOLLOWS, READS};
use crate::generate::pen::Pen;
use crate::generate::sketch::Sketch;

const MAX: u64 = u64::MAX;

pub fn write(pen: &mut Pen) {
    pen.say("size 1 8448");
    for (last, dropped, overwritten) in WRITERS {
        one_writer(pen, last, dropped, overwritten);
    }
    readers(pen);
    disagreements(pen);
    last_sequences(pen);
}

const WRITERS: [(u64, u64, u64); 26] = [
    (0, 0, 0),
    (0, 1, 0),
    (0, 0, 1),
    (5, 5, 0),
    (5, 6, 0),
    (5, 0, 5),
    (5, 0, 6),
    (5, 2, 3),
    (5, 2, 4),
    (5, 3, 3),
    (3, 0, 0),
    (4, 1, 0),
    (4, 0, 1),
    (MAX, 0, 0),
    (MAX, MAX, 0),
    (MAX, 0, MAX),
    (MAX, MAX, 1),
    (MAX - 1, 0, MAX),
    (MAX - 1, MAX, 0),
    (MAX - 1, 0, 0),
    (MAX - 1, MAX - 4, 0),
    (MAX - 1, 0, MAX - 4),
    (MAX - 1, 1 << 63, 1 << 63),
    (MAX - 1, 1 << 63, (1 << 63) - 4),
    (MAX, 1 << 63, (1 << 63) - 4),
    (1 << 63, MAX, MAX),
];

/// A full ring of three events: emission passes one, two or three of them, or is dropped.
fn one_writer(pen: &mut Pen, last: u64, dropped: u64, overwritten: u64) {
    for payload in [0, 40, 96, 97] {
        Sketch::new(256, 70, &[80, 80, 96]).draw(pen, 0);
        pen.writer(0, last, dropped, overwritten);
        pen.emit(0, 0, payload);
        pen.sum(0);
    }
    pen.writer(0, last, dropped, overwritten);
    pen.say("swap 0 1 0");
    pen.sum(0);
    pen.sum(1);
}

fn readers(pen: &mut Pen) {
    Sketch { generation: 3, ..Sketch::new(256, 70, &[80, 80, 96]) }.draw(pen, 0);
    let counts =
        [(0, 0), (0, 1), (1, 0), (1, 1), (1, 2), (2, 2), (3, 0), (4, 4), (MAX, 0), (MAX, MAX), (MAX - 1, MAX), (0, MAX), (2, 3)];
    for (last, handed) in counts {
        one_reader(pen, last, handed);
    }
    pen.sum(0);
    pen.say("outsum");
}

fn one_reader(pen: &mut Pen, last: u64, handed: u64) {
    for (read_pos, generation) in [(0, 2), (70, 3), (150, 2), (326, 3), (326, 2), (327, 2), (MAX, 0), (230, 4)] {
        set_readers(pen, read_pos, last, handed, generation);
        pen.read(0, READS, 40_960);
        pen.say(format!("follow 0 {FOLLOWS}"));
    }
}

/// From none to all of the four events that the ring holds, with one to three of them passed.
fn disagreements(pen: &mut Pen) {
    for held in 0..=4 {
        disagreement(pen, held, 0);
        disagreement(pen, held, 32);
        disagreement(pen, held, 64);
        disagreement(pen, held, 96);
    }
}

fn disagreement(pen: &mut Pen, held: u64, payload: u64) {
    Sketch::new(256, 1000, &[64, 64, 64, 64]).draw(pen, 0);
    for (dropped, overwritten) in [(9, 11 - held), (11 - held, 9)] {
        pen.writer(0, 20, dropped, overwritten);
        pen.emit(0, 0, payload);
        pen.say("swap 0 1 0");
    }
    pen.sum(0);
}

fn last_sequences(pen: &mut Pen) {
    for left in 0..6 {
        last_sequence(pen, left, 0);
        last_sequence(pen, left, 96);
        last_sequence(pen, left, 97);
    }
}

/// A ring and its record with so many numbers left, used up before the swap and after it.
fn last_sequence(pen: &mut Pen, left: u64, payload: u64) {
    let last = MAX - left;
    let events = vec![(80, last - 2), (80, last - 1), (96, last)];
    Sketch { generation: 2, events, ..Sketch::new(256, 1 << 40, &[]) }.draw(pen, 0);
    pen.writer(0, last, left, last - left - 3);
    set_readers(pen, 0, last - 1, 5, 1);
    Calls { payload, ..Calls::default() }.every(pen);
    for _ in 0..3 {
        pen.emit(1, 0, payload);
        pen.read(1, FOLLOWS, 40_960);
    }
    pen.say("inspect 1");
}
