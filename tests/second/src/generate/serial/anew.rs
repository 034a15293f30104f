//! `serial` and `end` everywhere: the next file begins anew, and nothing of the one before is left.

use super::cuts::{end, feed, whole};
use super::recording::Recording;
use crate::generate::pen::Pen;

const ROUNDS: usize = 50;

pub fn write(pen: &mut Pen) {
    at_every_length(pen);
    for round in 0..ROUNDS {
        in_every_part(pen, round);
    }
}

fn at_every_length(pen: &mut Pen) {
    let first = Recording { cpu_id: 0xABCD, events: vec![(34, 7), (33, 1 << 40)] }.bytes(pen);
    let second = Recording::new(0x0102, &[32, 33]).bytes(pen);
    for length in 0..=first.len() {
        feed(pen, &first[..length]);
        pen.say("serial");
        if length % 5 == 0 {
            whole(pen, &second);
        }
    }
}

/// At the start, within each part, between two of them, after the closing and after a fault; a piece of no bytes comes before.
fn in_every_part(pen: &mut Pen, round: usize) {
    let recording = Recording { cpu_id: pen.random.next() as u16, events: vec![(35, 1 + pen.random.below(3))] };
    let file = recording.bytes(pen);
    let wrong = [&[b's'][..], &file[1..]].concat();
    let any = |first: usize, bytes: usize| first + round % bytes;
    let between = [8, 43][round % 2];
    for length in [0, any(1, 7), between, any(9, 31), any(41, 2), any(44, 23), 67] {
        for begin_anew in ["serial", "end"] {
            begun_anew(pen, &file[..length], begin_anew);
        }
    }
    begun_anew(pen, &wrong[..any(8, 59)], "serial");
    // The file that follows has another cpu_id and a lower sequence.
    if round % 5 == 0 {
        let next = Recording { cpu_id: !recording.cpu_id, events: vec![(32, 1)] }.bytes(pen);
        whole(pen, &next);
    }
}

/// The end that follows finds a file of no bytes.
fn begun_anew(pen: &mut Pen, start: &[u8], line: &str) {
    if !start.is_empty() {
        feed(pen, start);
    }
    feed(pen, &[]);
    pen.say(line);
    if pen.random.one_in(8) {
        end(pen);
    }
}
