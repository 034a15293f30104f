//! Sizes on the right side of the edges. The event passes, and what stands behind it is judged: noise, the end, or too few bytes.

use super::bad::{Header, HEADER};
use super::calls::{largest_emission, looks, sums};
use super::rings::{draw, readers_at, three_events, EVENTS};
use crate::generate::pen::Pen;

pub fn write(pen: &mut Pen) {
    for index in 0..EVENTS {
        let sketch = three_events(256, 700 + 31 * index as u64);
        let room = sketch.write_pos() - sketch.start(index);
        for size in [HEADER, HEADER + 1, room - HEADER, room - HEADER + 1, room - 1, room] {
            draw(pen, &sketch);
            readers_at(pen, &sketch, index);
            let mut header = Header::of(pen, &sketch, index);
            header.set(0, &(size as u32).to_le_bytes());
            header.put(pen);
            looks(pen);
            largest_emission(pen, sketch.capacity);
            sums(pen);
        }
    }
}
