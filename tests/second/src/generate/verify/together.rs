//! Two differences, of which the first is named; a difference in a recording that is shorter or longer too.

use super::beside::{with_byte, Beside};
use super::rings::{small, smallest};
use crate::generate::pen::Pen;

const PAIRS: usize = 9;

pub fn write(pen: &mut Pen) {
    for (turn, sketch) in small().iter().enumerate() {
        let beside = Beside::of_turn(turn + 2);
        let own = beside.drawn(pen, sketch);
        for _ in 0..PAIRS {
            two_differences(pen, beside, &own);
        }
    }
    for (turn, sketch) in smallest().iter().chain(&smallest()).enumerate() {
        let beside = Beside::of_turn(turn + 7);
        let own = beside.drawn(pen, sketch);
        shorter(pen, beside, &own);
        longer(pen, beside, &own);
    }
}

/// The second one right behind the first, anywhere behind it, or in the last byte.
fn two_differences(pen: &mut Pen, beside: Beside, own: &[u8]) {
    let first = pen.random.below(own.len() as u64 - 1) as usize;
    let behind = (own.len() - first - 1) as u64;
    let second = first + 1 + [0, pen.random.below(behind) as usize, behind as usize - 1][pen.random.below(3) as usize];
    let altered = with_byte(own, first, pen.random.pick(&[1, 0x80]));
    beside.ask_with_byte(pen, &altered, second, 0xFF);
}

fn shorter(pen: &mut Pen, beside: Beside, own: &[u8]) {
    let some = 2 + pen.random.below(own.len() as u64 - 3) as usize;
    for fewer in [1, 24, some] {
        let length = own.len() - fewer;
        three_places(pen, beside, &own[..length], length);
    }
}

fn longer(pen: &mut Pen, beside: Beside, own: &[u8]) {
    for more in [1, 9, 3000] {
        three_places(pen, beside, &[own, &vec![0; more]].concat(), own.len());
    }
}

/// The first of the bytes that both have, the last, and any.
fn three_places(pen: &mut Pen, beside: Beside, recording: &[u8], both_have: usize) {
    let any = pen.random.below(both_have as u64) as usize;
    for place in [0, both_have - 1, any] {
        beside.ask_with_byte(pen, recording, place, 0x41);
    }
}
