//! Fields of the page: capacity, version, data offset, generation.

use crate::generate::calls::{set_readers, Calls};
use crate::generate::pen::Pen;
use crate::generate::sketch::Sketch;

pub fn write(pen: &mut Pen) {
    capacities(pen);
    versions(pen);
    data_offsets(pen);
    generations(pen);
}

/// Powers of two, their neighbours, and two bits set, on the largest ring and on the smallest.
fn capacities(pen: &mut Pen) {
    pen.fresh(0, 32_768, 7);
    pen.fresh(2, 256, 7);
    for shift in 0..64 {
        let power = 1u64 << shift;
        capacity(pen, power);
        capacity(pen, power - 1);
        capacity(pen, power | power.rotate_left(1));
        capacity(pen, power | 256);
        pen.put_word(2, 16, power);
        pen.say("attach 2 0");
    }
    pen.put_word(0, 16, 0);
    Calls::default().looks(pen);
}

fn capacity(pen: &mut Pen, capacity: u64) {
    pen.put_word(0, 16, capacity);
    pen.say("inspect 0");
}

fn versions(pen: &mut Pen) {
    pen.fresh(0, 256, 7);
    for version in [0u32, 2, 257, 65_537, 0x0100_0001, 0x0100_0000, u32::MAX, 1] {
        pen.put(0, 8, &version.to_le_bytes());
        Calls::default().looks(pen);
    }
}

fn data_offsets(pen: &mut Pen) {
    pen.fresh(0, 256, 7);
    for offset in [0, 1, 4096, 8191, 8193, 8448, 16_384, 8192 | 1 << 32, 8192 | 1 << 63, 32, 8192] {
        pen.put_word(0, 24, offset);
        Calls::default().looks(pen);
    }
}

fn generations(pen: &mut Pen) {
    const MAX: u64 = u64::MAX;
    pen.say("size 1 8448");
    for generation in [0, 1, 2, 255, 256, u64::from(u32::MAX), 1 << 63, MAX - 2, MAX - 1, MAX] {
        readers_of_generation(pen, generation);
        pen.say("swap 0 1 0");
        pen.say("get 0 32 8");
        pen.say("swap 1 0 0");
        pen.say("get 0 32 8");
        pen.sum(0);
        pen.sum(1);
    }
}

fn readers_of_generation(pen: &mut Pen, generation: u64) {
    for of_reader in [0, generation.saturating_sub(1), generation, generation.saturating_add(1)] {
        let sketch = Sketch { generation, ..Sketch::new(256, 300, &[40, 50]) };
        sketch.draw(pen, 0);
        pen.writer(0, 2, 0, 0);
        set_readers(pen, sketch.write_pos(), 1, 1, of_reader);
        Calls::default().looks(pen);
    }
}
