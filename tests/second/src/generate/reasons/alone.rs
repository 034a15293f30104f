//! One reason at a time, in each event: each value at the reason's edge, each byte of the field.

use super::bad::{sizes_past, Header, CPU_IDS, HEADER_SIZES, SIZES_UNDER_32, SPARES};
use super::rings::{draw, readers_at, three_events, EVENTS};
use crate::generate::pen::Pen;
use crate::generate::sketch::Sketch;

pub fn write(pen: &mut Pen) {
    for sketch in [three_events(256, 256 * 5 + 9), three_events(1024, (1 << 40) + 300)] {
        draw(pen, &sketch);
        for index in 0..EVENTS {
            readers_at(pen, &sketch, index);
            one_event(pen, &sketch, index);
        }
    }
}

fn one_event(pen: &mut Pen, sketch: &Sketch, index: usize) {
    let room = sketch.write_pos() - sketch.start(index);
    for header_size in HEADER_SIZES {
        one_field(pen, sketch, index, 4, &header_size.to_le_bytes());
    }
    for event_size in SIZES_UNDER_32.into_iter().chain(sizes_past(room)) {
        one_field(pen, sketch, index, 0, &event_size.to_le_bytes());
    }
    for cpu_id in CPU_IDS {
        one_field(pen, sketch, index, 6, &cpu_id.to_le_bytes());
    }
    for (offset, byte) in SPARES {
        one_field(pen, sketch, index, offset, &[byte]);
    }
}

fn one_field(pen: &mut Pen, sketch: &Sketch, index: usize, offset: usize, bytes: &[u8]) {
    let mut header = Header::of(pen, sketch, index);
    header.set(offset, bytes);
    header.tried(pen);
}
