//! Damaged events: refused wherever the piece lies, and before a place above the length is.

use super::pieces::past_the_end;
use super::{length, ALL};
use crate::generate::pen::Pen;
use crate::generate::sketch::Sketch;

pub fn write(pen: &mut Pen) {
    // The second event's header passes the end of the data region in one ring, the third event's payload in the other.
    for tail_pos in [256 * 7 - 80, 256 * 9 - 190] {
        let events = vec![(70, 5), (80, 6), (90, 9)];
        let sketch = Sketch { cpu_id: 0x0102, events, ..Sketch::new(256, tail_pos, &[]) };
        sketch.draw(pen, 0);
        for index in 0..3 {
            every_field(pen, &sketch, index);
        }
        write_positions(pen, &sketch);
        pen.sum(0);
    }
}

fn every_field(pen: &mut Pen, sketch: &Sketch, index: usize) {
    let room = (sketch.write_pos() - sketch.start(index)) as u32;
    let size = pen.random.pick(&[0, 31, room + 1, 65_536 + 70, u32::MAX]);
    let header_size: u16 = pen.random.pick(&[0, 31, 33, 288]);
    let cpu_id: u16 = pen.random.pick(&[0, 0x0103, 0x0202, 0x0201]);
    let spare = pen.random.pick(&[29, 30, 31]);
    let before = if index == 0 { 0 } else { sketch.events[index - 1].1 };
    let sequence = before - pen.random.below(2).min(before);
    one_field(pen, sketch, index, 0, &size.to_le_bytes());
    one_field(pen, sketch, index, 4, &header_size.to_le_bytes());
    one_field(pen, sketch, index, 6, &cpu_id.to_le_bytes());
    one_field(pen, sketch, index, spare, &[128]);
    one_field(pen, sketch, index, 8, &sequence.to_le_bytes());
}

/// Altered, and put back.
fn one_field(pen: &mut Pen, sketch: &Sketch, index: usize, offset: u64, bytes: &[u8]) {
    let at = sketch.start(index) + offset;
    let as_it_was: Vec<u8> = (0..bytes.len() as u64).map(|step| pen.machine.buffers[0][sketch.place(at + step)]).collect();
    sketch.put_at(pen, 0, at, bytes);
    places(pen);
    sketch.put_at(pen, 0, at, &as_it_was);
}

/// The last event ends past write_pos, or bytes that are no event lie before it.
fn write_positions(pen: &mut Pen, sketch: &Sketch) {
    let write_pos = sketch.write_pos();
    for other in [write_pos - 1, write_pos - 60, write_pos + 1, write_pos + 16] {
        pen.put_word(0, 64, other);
        places(pen);
    }
    pen.put_word(0, 64, write_pos);
    pen.record(0, 0, ALL);
    past_the_end(pen, 0);
}

/// Before every event, after them, and above the length.
fn places(pen: &mut Pen) {
    let whole = length(pen, 0);
    let inside = pen.random.pick(&[0, 1, 8, whole / 2, whole - 1, whole]);
    let far_above = pen.random.pick(&[whole + 2, (1 << 32) + 8, 1 << 63, u64::MAX]);
    for placed in [inside, whole + 1, far_above] {
        let lent = pen.random.pick(&[0, 1, 8, 33, ALL, ALL]);
        pen.record(0, placed, lent);
    }
    if pen.random.one_in(3) {
        pen.say("outsum");
    }
}
