//! Headers over the data's end with one byte that makes them bad: put together from other bytes, such a header could pass.

use super::ALL;
use crate::generate::calls::{set_readers, FOLLOWS, READS};
use crate::generate::pen::Pen;
use crate::generate::sketch::Sketch;

/// None of its bytes is zero.
const SEQUENCE: u64 = 0x1112_1314_1516_1718;

const OF_SEQUENCE: std::ops::Range<u64> = 8..16;

pub fn write(pen: &mut Pen) {
    pen.say("size 1 8448");
    for before_end in 1..32 {
        one_header(pen, before_end);
    }
}

/// The second event's, which the walk of an emission comes to as well.
fn one_header(pen: &mut Pen, before_end: u64) {
    let events = vec![(40, SEQUENCE), (44, SEQUENCE + 1), (100, SEQUENCE + 2)];
    let sketch = Sketch { cpu_id: 0x0102, generation: 2, events, ..Sketch::new(256, 256 * 4 - 40 - before_end, &[]) };
    sketch.draw(pen, 0);
    pen.writer(0, 3, 0, 0);
    set_readers(pen, sketch.start(1), SEQUENCE, 1, 1);
    for (turn, offset) in (0..16).chain(29..32).enumerate() {
        one_byte(pen, &sketch, offset, turn + before_end as usize);
    }
    pen.sum(0);
}

/// Each byte that is judged decides alone: one that isn't zero becomes so, and a zero becomes the highest. Then it is put back.
fn one_byte(pen: &mut Pen, sketch: &Sketch, offset: u64, turn: usize) {
    let place = sketch.place(sketch.start(1) + offset);
    let as_it_was = pen.machine.buffers[0][place];
    pen.put(0, place, &[if as_it_was == 0 { 255 } else { 0 }]);
    pen.say("inspect 0");
    // An emission doesn't look at the sequence.
    let kinds = if OF_SEQUENCE.contains(&offset) { 4 } else { 5 };
    one_call(pen, turn % kinds);
    one_call(pen, (turn + 2) % kinds);
    pen.put(0, place, &[as_it_was]);
}

fn one_call(pen: &mut Pen, kind: usize) {
    match kind {
        0 => pen.read(0, READS, ALL),
        1 => pen.say(format!("follow 0 {FOLLOWS}")),
        2 => pen.record(0, 0, ALL),
        3 => pen.say("swap 0 1 0"),
        _ => pen.say("emitlen 0 0 1 1 1 96"),
    };
}
