//! Every byte of a small file altered in turn.

use super::cuts::{feed, some_way, whole};
use super::recording::Recording;
use crate::generate::pen::Pen;

/// Two events, one with a payload, and a sequence left out.
pub fn write(pen: &mut Pen) {
    let recording = Recording { cpu_id: 0x0203, events: vec![(35, 2), (32, 3)] };
    let file = recording.bytes(pen);
    whole(pen, &file);
    for at in 0..file.len() {
        for byte in alterations(pen, file[at]) {
            let mut altered = file.clone();
            altered[at] = byte;
            some_way(pen, &altered);
        }
    }
    cut_before_the_altered_byte(pen, &file);
}

/// One bit, and zero or all bits; each differs from the byte as it was.
fn alterations(pen: &mut Pen, byte: u8) -> [u8; 2] {
    let other = if byte == 0 { 255 } else { 0 };
    [byte ^ 1 << pen.random.below(8), other]
}

/// So that its part arrives in two pieces, the last one beginning with it.
fn cut_before_the_altered_byte(pen: &mut Pen, file: &[u8]) {
    for at in 0..file.len() {
        let mut altered = file.to_vec();
        altered[at] = altered[at].wrapping_add(1);
        feed(pen, &altered[..at]);
        whole(pen, &altered[at..]);
    }
}
