//! What comes after the closing and after a fault.

use super::cuts::{at_places, byte_by_byte, end, feed, in_random_cuts, whole};
use super::recording::Recording;
use crate::generate::pen::Pen;

pub fn write(pen: &mut Pen) {
    for _ in 0..10 {
        bytes_after_the_closing(pen);
    }
    after_a_fault(pen);
}

/// In the closing's piece, in a later one, and over both; zeros and a whole recording are no better than noise.
fn bytes_after_the_closing(pen: &mut Pen) {
    let recording = Recording::random(pen, 2);
    let file = recording.bytes(pen);
    let noise = pen.random.below(40) + 1;
    let noise = pen.random.bytes(noise);
    for more in [&noise[..1], &noise, &[0], &[0; 32], &recording.closing(), &file] {
        let longer = [&file[..], more].concat();
        whole(pen, &longer);
        at_places(pen, &longer, &[file.len()]);
        let place = recording.closing_start() + 1 + pen.random.below(23) as usize;
        at_places(pen, &longer, &[place]);
        in_random_cuts(pen, &longer);
    }
    feed(pen, &file);
    feed(pen, &[]);
    byte_by_byte(pen, &noise);
}

/// However much is fed, nothing more is told, and the end finds nothing.
fn after_a_fault(pen: &mut Pen) {
    let sound = Recording::new(9, &[36, 32]).bytes(pen);
    for at in [0, 3, 7, 8 + 4, 8 + 8, 8 + 36 + 8, 8 + 68 + 4, 8 + 68 + 8] {
        let mut file = sound.clone();
        file[at] ^= 0x11;
        feed(pen, &file);
        feed(pen, &file);
        feed(pen, &[]);
        in_random_cuts(pen, &sound);
        byte_by_byte(pen, &file);
        end(pen);
    }
}
