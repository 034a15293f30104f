//! Sizes: half the capacity, events above it, what fits a swap, output buffers that are just long enough.

use crate::generate::calls::{set_readers, Calls};
use crate::generate::pen::Pen;
use crate::generate::sketch::Sketch;

pub fn write(pen: &mut Pen) {
    for shift in 8..=15 {
        halves(pen, 1 << shift);
    }
    giants(pen);
    fits(pen);
    outputs(pen);
}

fn halves(pen: &mut Pen, capacity: u64) {
    pen.fresh(0, capacity, 21);
    pen.writer(0, 0, 0, 0);
    for payload in [capacity / 2 - 32, capacity / 2 - 31, capacity / 2, capacity - 32, capacity - 31, capacity, 40_960, 40_961] {
        pen.say(format!("emitlen 0 0 {payload} 1 2 {payload}"));
    }
    for payload in [capacity / 2 - 32, 0, capacity / 2 - 32, 1, capacity / 2 - 33, capacity / 2 - 32] {
        pen.say(format!("emitlen 0 0 {payload} 1 2 {payload}"));
        pen.say("inspect 0");
    }
    pen.sum(0);
}

/// Events above half the capacity are read, inspected, followed, passed and swapped like any other.
fn giants(pen: &mut Pen) {
    for sizes in [&[256][..], &[129], &[255], &[200, 56], &[32, 224], &[40, 129, 80], &[224, 32], &[32; 8], &[40; 6]] {
        giant(pen, sizes, 77, 0, 512);
        giant(pen, sizes, 77, 60, 256);
        giant(pen, sizes, 1 << 61, 0, 256);
        giant(pen, sizes, 1 << 61, 96, 512);
    }
}

fn giant(pen: &mut Pen, sizes: &[u64], tail_pos: u64, payload: u64, to_capacity: u64) {
    Sketch { generation: 2, ..Sketch::new(256, tail_pos, sizes) }.draw(pen, 0);
    pen.say(format!("size 1 {}", 8192 + to_capacity));
    pen.writer(0, sizes.len() as u64, 0, 0);
    set_readers(pen, tail_pos, 0, 0, 1);
    Calls { payload, ..Calls::default() }.every(pen);
}

const ROWS: [&[u64]; 12] = [
    &[32, 256],
    &[32, 224, 32],
    &[33, 224, 32],
    &[300, 100],
    &[100, 300],
    &[100, 156, 100],
    &[101, 156, 100],
    &[128, 128, 128],
    &[128, 128, 129],
    &[64, 64, 64, 64, 64],
    &[257],
    &[32, 32, 32, 257],
];

fn fits(pen: &mut Pen) {
    for sizes in ROWS {
        fit(pen, sizes, 256, 1);
        fit(pen, sizes, 512, 0);
        fit(pen, sizes, 1024, 2);
    }
}

fn fit(pen: &mut Pen, sizes: &[u64], to_capacity: u64, need_wake: u8) {
    Sketch { generation: 8, ..Sketch::new(512, 400, sizes) }.draw(pen, 0);
    pen.put(0, 4096, &[need_wake]);
    pen.writer(0, sizes.len() as u64 + 2, 1, 1);
    pen.say(format!("size 1 {}", 8192 + to_capacity));
    pen.put(1, 30, &[0xEE; 200]);
    pen.say("swap 0 1 0");
    pen.say("inspect 1");
    pen.sum(0);
    pen.sum(1);
}

fn outputs(pen: &mut Pen) {
    for size in [32, 33, 100, 256] {
        Sketch::new(256, 200, &[size]).draw(pen, 0);
        outputs_for(pen, size);
    }
}

fn outputs_for(pen: &mut Pen, size: u64) {
    for lent in [0, 1, 31, 32, size - 1, size, size + 1, 40_959, 40_960, 40_961] {
        pen.say("attach 0 0");
        pen.read(0, 0, lent);
        pen.read(0, 0, lent);
        pen.say("outsum");
    }
}
