//! Pieces of no bytes everywhere: they tell nothing and change nothing.

use super::cuts::{end, feed};
use super::recording::Recording;
use crate::generate::pen::Pen;

pub fn write(pen: &mut Pen) {
    between_all_bytes(pen);
    for _ in 0..12 {
        at_the_parts(pen);
    }
}

/// The last ones come after the closing.
fn between_all_bytes(pen: &mut Pen) {
    let file = Recording::new(0x0403, &[34, 32]).bytes(pen);
    for byte in file {
        feed(pen, &[]);
        feed(pen, &[byte]);
    }
    feed(pen, &[]);
    feed(pen, &[]);
    end(pen);
}

/// Cut where parts begin and somewhere within them, with empty pieces at each cut; some files end with a fault.
fn at_the_parts(pen: &mut Pen) {
    let recording = Recording::random(pen, 3);
    let mut file = recording.bytes(pen);
    if pen.random.one_in(3) {
        let at = pen.random.below(file.len() as u64) as usize;
        file[at] ^= 0x40;
    }
    let mut places: Vec<usize> = (0..=recording.events.len()).map(|index| recording.start(index)).collect();
    places.extend((0..6).map(|_| pen.random.below(file.len() as u64) as usize));
    places.sort();
    let mut from = 0;
    for place in places {
        feed(pen, &file[from..place]);
        feed(pen, &[]);
        from = place;
    }
    feed(pen, &file[from..]);
    feed(pen, &[]);
    end(pen);
}
