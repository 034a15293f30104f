//! Fewer than 32 bytes left up to write_pos: no field of a header is looked at, whatever stands there.

use super::bad::{Header, HEADER};
use super::calls::{largest_emission, looks, sums};
use super::rings::{draw, near_the_end, readers_at, three_events};
use crate::generate::pen::Pen;

const LAST: usize = 2;

/// Reasons that hold in the bytes there too. With none of them the event's own size runs past write_pos.
const OTHERS: [&[u8]; 11] = [&[], &[2], &[3], &[5], &[6], &[7], &[2, 5], &[3, 6], &[3, 5, 7], &[2, 6, 7], &[2, 3, 5, 6, 7]];

pub fn write(pen: &mut Pen) {
    one_after_the_other(pen);
    for before_end in 1..HEADER {
        over_the_end(pen, before_end);
    }
}

/// Each number of bytes, and 32 at the end, with which the header is looked at.
fn one_after_the_other(pen: &mut Pen) {
    let sketch = three_events(256, 256 * 3 + 20);
    draw(pen, &sketch);
    readers_at(pen, &sketch, LAST);
    let sound = Header::of(pen, &sketch, LAST);
    for left in 1..=HEADER {
        cut(pen, &sound, left);
        looks(pen);
        sums(pen);
    }
}

/// 7 and 31 have no common factor, so the number of bytes left differs for each part of the header.
fn over_the_end(pen: &mut Pen, before_end: u64) {
    let sketch = near_the_end(256, LAST, before_end, 9 * before_end);
    draw(pen, &sketch);
    readers_at(pen, &sketch, LAST);
    let sound = Header::of(pen, &sketch, LAST);
    cut(pen, &sound, 1 + before_end * 7 % 31);
    if before_end % 2 == 0 {
        pen.put_word(0, 72, sketch.start(LAST));
    }
    looks(pen);
    sums(pen);
    // An emission never comes to such a place: it goes on, and the next ring is drawn anew.
    if before_end % 4 < 2 {
        largest_emission(pen, 256);
        pen.sum(0);
    }
}

fn cut(pen: &mut Pen, sound: &Header, left: u64) {
    pen.put_word(0, 64, sound.sketch.start(LAST) + left);
    let others = OTHERS[left as usize % OTHERS.len()];
    sound.spoilt(pen, others).put(pen);
}
