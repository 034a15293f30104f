//! Every order of the tail, the tail seen and the slip's position, also such as no copy hands out.

use super::rings::{empty, positions, set_reader, set_slip, HEADER, MAX};
use crate::generate::pen::Pen;
use crate::ring::{Reader, Slip, HIGHEST_POSITION};
use std::cmp::Ordering;

const RINGS: usize = 52;
const ORDERS: [Ordering; 3] = [Ordering::Less, Ordering::Equal, Ordering::Greater];

pub fn write(pen: &mut Pen) {
    for capacity in [256, 2048] {
        empty(pen, 0, capacity, 0, 0);
        for _ in 0..RINGS / 2 {
            one_ring(pen, capacity);
        }
    }
}

fn one_ring(pen: &mut Pen, capacity: u64) {
    let tail = pen.random.pick(&[200, 5000, 1 << 50, HIGHEST_POSITION - capacity]);
    positions(pen, 0, tail, tail + capacity);
    for seen in ORDERS {
        for place in ORDERS {
            one_order(pen, tail, seen, place);
        }
    }
    if pen.random.one_in(4) {
        pen.sum(0);
        pen.say("outsum");
    }
}

/// How the tail seen and the slip's position stand to the tail. After AGAIN the same slip is below the reader.
fn one_order(pen: &mut Pen, tail: u64, seen: Ordering, place: Ordering) {
    let position = near(pen, tail, place, tail + 100);
    let tail_seen = near(pen, tail, seen, MAX);
    let back = 1 + pen.random.below(position);
    let read_pos = pen.random.pick(&[position, position - 1, position - back]);
    let last = pen.random.pick(&[0, 7, MAX - 9]);
    let (size, sequence) = (HEADER + pen.random.below(50), last + 1 + pen.random.below(9));
    let reader = Reader { read_pos, last, handed: last.min(3), generation: pen.random.below(3) };
    set_reader(pen, 2, reader);
    set_slip(pen, 3, Slip { position, size, sequence, tail_seen });
    let answer = pen.confirm(0, 2, 3);
    if answer.starts_with("again") && pen.random.one_in(2) {
        pen.say("outsum");
        pen.confirm(0, 2, 3);
    }
}

/// Next to the tail or anywhere on that side.
fn near(pen: &mut Pen, tail: u64, order: Ordering, most: u64) -> u64 {
    match order {
        Ordering::Less => pen.random.pick(&[tail - 1, tail - HEADER, 1]),
        Ordering::Equal => tail,
        Ordering::Greater => pen.random.pick(&[tail + 1, tail + HEADER, most]),
    }
}
