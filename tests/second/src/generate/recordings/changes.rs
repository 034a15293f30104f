//! Bytes that change between the pieces: those that are no part of the recording, and the ring itself.

use super::{length, ALL};
use crate::generate::pen::Pen;
use crate::generate::sketch::Sketch;

pub fn write(pen: &mut Pen) {
    bytes_outside_the_recording(pen);
    emissions_between(pen);
    emptied_between(pen);
}

/// The recording stays the same.
fn bytes_outside_the_recording(pen: &mut Pen) {
    let sketch = Sketch { generation: 3, ..Sketch::new(256, 256 * 4 - 60, &[50, 80, 60]) };
    sketch.draw(pen, 0);
    for lent in [7, 33] {
        let mut placed = 0;
        while placed < length(pen, 0) {
            scribble(pen, &sketch);
            pen.record(0, placed, lent);
            placed += lent;
        }
        pen.record(0, 0, ALL);
    }
    pen.say("outsum");
    pen.sum(0);
}

/// The flag, the consumer's other bytes, bytes that nobody looks at, the counter, the generation, free room in the data region.
fn scribble(pen: &mut Pen, sketch: &Sketch) {
    let noise = pen.random.bytes(8);
    match pen.random.below(8) {
        0..=2 => pen.put(0, 4096, &noise[..1]),
        3 => pen.put(0, 4097 + usize::from(noise[0]) * 15, &noise),
        4 => pen.put(0, 192 + usize::from(noise[0]) * 15, &noise),
        5 => pen.put(0, 128, &noise[..4]),
        6 => pen.put(0, 32, &[noise[0] | 1]),
        _ => sketch.put_at(pen, 0, sketch.write_pos() + u64::from(noise[0] % 50), &noise),
    }
}

/// Each piece is of the ring as it stands then.
fn emissions_between(pen: &mut Pen) {
    pen.fresh(0, 256, 0x0A0B);
    pen.writer(3, 0, 0, 0);
    for turn in 0..20 {
        let payload = pen.random.pick(&[0, 3, 50, 96, 97]);
        pen.emit(0, 3, payload);
        pen.record(0, turn * 11, 40);
        pen.record(0, turn * 13, ALL);
    }
    pen.say("outsum");
    pen.sum(0);
}

/// A place that was inside is above the length of what is left.
fn emptied_between(pen: &mut Pen) {
    let sketch = Sketch::new(256, 300, &[40, 60, 100]);
    sketch.draw(pen, 0);
    for index in 0..3 {
        pen.record(0, 0, 100);
        pen.record(0, 100, 32);
        pen.record(0, 132, 32);
        pen.put_word(0, 72, sketch.start(index) + sketch.events[index].0);
    }
    for placed in [0, 32, 33, 132] {
        pen.record(0, placed, 32);
    }
    pen.say("outsum");
}
