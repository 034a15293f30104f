//! Each capacity that a script can hold, filled, and with little in it.

use super::pieces::{every_way, in_pieces, past_the_end};
use super::ALL;
use crate::generate::pen::Pen;
use crate::generate::sketch::Sketch;

pub fn filled(pen: &mut Pen) {
    largest(pen);
    for shift in 9..=14 {
        by_emissions(pen, 1 << shift);
    }
}

/// All random bytes, so that one taken from a wrong place is seen; the event above half the capacity passes the end of the data.
fn largest(pen: &mut Pen) {
    Sketch { cpu_id: 0x5AA5, ..Sketch::new(32_768, 32_768 * 3 + 20_000, &[9000, 20_000, 3768]) }.draw(pen, 0);
    in_pieces(pen, 0, ALL);
    in_pieces(pen, 0, 5000);
    past_the_end(pen, 0);
    pen.sum(0);
}

/// Emitted until the ring is full and goes on at its front. The small pieces would be too many in a large ring.
fn by_emissions(pen: &mut Pen, capacity: u64) {
    pen.fresh(1, capacity, capacity + 7);
    pen.writer(0, 0, 0, 0);
    for payload in [capacity / 2 - 32, 97, capacity / 4, 50, capacity / 2 - 131, 33, 77] {
        pen.emit(1, 0, payload);
    }
    in_pieces(pen, 1, ALL);
    in_pieces(pen, 1, capacity / 2 + 16);
    if capacity == 512 {
        for lent in [31, 32, 33] {
            in_pieces(pen, 1, lent);
        }
    }
    past_the_end(pen, 1);
    pen.sum(1);
}

/// One event, whose header passes the end of the data region.
pub fn small_recordings(pen: &mut Pen) {
    for shift in 9..=15 {
        let (capacity, cpu_id) = (1 << shift, 0x0300 << (shift - 9) | shift);
        Sketch { cpu_id, ..Sketch::new(capacity, capacity * 4 - u64::from(shift), &[34]) }.draw(pen, 2);
        every_way(pen, 2);
    }
}
