//! Copies that meet a bad event: each reason alone and with others, in each event of a ring, for readers that were lapped too,
//! and in headers over the data's end.

use super::rings::ALL;
use crate::generate::calls::READS;
use crate::generate::pen::Pen;
use crate::generate::reasons::bad::{Header, HEADER};
use crate::generate::reasons::rings::{draw, near_the_end, readers_at, three_events, EVENTS};
use crate::generate::reasons::together::choices;
use crate::generate::sketch::Sketch;

const ROUNDS: usize = 15;

pub fn write(pen: &mut Pen) {
    for round in 0..ROUNDS {
        let index = round % EVENTS;
        let sketch = any_ring(pen, round, index);
        draw(pen, &sketch);
        readers_at(pen, &sketch, index);
        if index == 0 {
            let back = 1 + pen.random.below(40);
            pen.reader(READS, sketch.tail_pos - back, 0, 0, 1);
        }
        every_reason(pen, &sketch, index);
    }
}

fn any_ring(pen: &mut Pen, round: usize, index: usize) -> Sketch {
    let capacity = pen.random.pick(&[256, 256, 256, 1024]);
    let laps = 2 + pen.random.below(1 << 40);
    if round % 2 == 0 {
        near_the_end(capacity, index, 1 + pen.random.below(HEADER - 1), laps)
    } else {
        three_events(capacity, capacity * laps + 10)
    }
}

fn every_reason(pen: &mut Pen, sketch: &Sketch, index: usize) {
    let sound = Header::of(pen, sketch, index);
    for first in 2..=7 {
        let choices = choices(first);
        for turn in 0..4 {
            let alone = turn < 2 || choices.is_empty();
            let reasons = if alone { vec![first] } else { choices[pen.random.below(choices.len() as u64) as usize].clone() };
            sound.spoilt(pen, &reasons).put(pen);
            refused(pen);
        }
    }
    few_bytes_left(pen, &sound);
    sound.put(pen);
    pen.put_word(0, 64, sketch.write_pos());
    pen.copy(0, READS, 0, ALL);
    pen.confirm(0, READS, 0);
    pen.sum(0);
}

/// What stands there doesn't count: a sound header, or a bad one.
fn few_bytes_left(pen: &mut Pen, sound: &Header) {
    let start = sound.sketch.start(sound.index);
    for reasons in [&[][..], &[2, 5], &[7], &[3, 6, 7]] {
        sound.spoilt(pen, reasons).put(pen);
        let left = 1 + pen.random.below(HEADER - 1);
        pen.put_word(0, 64, start + left);
        refused(pen);
    }
}

/// 14 is asked later, so nothing need be lent.
fn refused(pen: &mut Pen) {
    let lent = pen.random.pick(&[0, 31, ALL]);
    let answer = pen.copy(0, READS, 0, lent);
    assert!(answer.starts_with("refused 10"));
    if pen.random.one_in(4) {
        pen.say("outsum");
    }
}
