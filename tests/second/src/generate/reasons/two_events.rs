//! Two bad events behind each other, for different reasons. The first is told with its own; a reader at the second is told that.

use super::bad::{with_reasons, Header, HEADER};
use super::calls::{largest_emission, looks, sums};
use super::rings::{draw, readers_at, three_events};
use crate::generate::pen::Pen;
use crate::generate::sketch::Sketch;

pub fn write(pen: &mut Pen) {
    let sketch = three_events(256, 256 * 11 + 77);
    draw(pen, &sketch);
    readers_at(pen, &sketch, 2);
    for first in 2..=7 {
        for second in (2..=7).filter(|second| *second != first) {
            one_pair(pen, &sketch, first, second);
        }
        few_bytes_left_behind(pen, &sketch, first);
    }
}

/// An emission goes past a sequence that doesn't rise and comes to the second event; so it is refused in every case.
fn one_pair(pen: &mut Pen, sketch: &Sketch, first: u8, second: u8) {
    let as_they_were = [1, 2].map(|index| Header::of(pen, sketch, index));
    with_reasons(pen, sketch, 1, &[first]).put(pen);
    with_reasons(pen, sketch, 2, &[second]).put(pen);
    looks(pen);
    largest_emission(pen, sketch.capacity);
    sums(pen);
    as_they_were.iter().for_each(|header| header.put(pen));
}

/// The second is bad for reason 1, which stands before all others and yet isn't told first.
fn few_bytes_left_behind(pen: &mut Pen, sketch: &Sketch, first: u8) {
    let as_it_was = Header::of(pen, sketch, 1);
    let left = 1 + pen.random.below(HEADER - 1);
    pen.put_word(0, 64, sketch.start(2) + left);
    with_reasons(pen, sketch, 1, &[first]).put(pen);
    looks(pen);
    sums(pen);
    as_it_was.put(pen);
    pen.put_word(0, 64, sketch.write_pos());
}
