//! Places at the recording's end and far beyond it.

use super::{length, ALL};
use crate::generate::pen::Pen;
use crate::generate::sketch::Sketch;

pub fn write(pen: &mut Pen) {
    pen.fresh(0, 512, 4);
    around_the_end(pen);
    for (capacity, tail_pos, sizes) in [(256, 700, &[90, 32][..]), (256, 10, &[100, 156]), (2048, 2000, &[48, 1000])] {
        Sketch::new(capacity, tail_pos, sizes).draw(pen, 0);
        around_the_end(pen);
    }
}

/// Among those far beyond are ones whose low bytes alone would lie inside.
fn around_the_end(pen: &mut Pen) {
    let whole = length(pen, 0);
    for placed in [whole - 25, whole - 24, whole - 8, whole - 1, whole, whole + 1, whole + 2, whole + 32] {
        with_each_length(pen, placed);
    }
    for base in [1 << 32, 1 << 62, 1 << 63] {
        with_each_length(pen, base);
        with_each_length(pen, base + 8);
        with_each_length(pen, base + whole);
    }
    for below_highest in [0, 7, whole] {
        with_each_length(pen, u64::MAX - below_highest);
    }
    pen.sum(0);
}

fn with_each_length(pen: &mut Pen, placed: u64) {
    for lent in [0, 1, ALL] {
        pen.record(0, placed, lent);
    }
    if pen.random.one_in(3) {
        pen.say("outsum");
    }
}
