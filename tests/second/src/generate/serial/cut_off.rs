//! Files cut off at every length: also such as would have had a fault, had the part become whole.

use super::cuts::{byte_by_byte, in_random_cuts, whole};
use super::recording::Recording;
use crate::generate::pen::Pen;

pub fn write(pen: &mut Pen) {
    let file = Recording { cpu_id: 0xFF01, events: vec![(35, 1), (32, 9)] }.bytes(pen);
    for length in 0..=file.len() {
        whole(pen, &file[..length]);
        in_random_cuts(pen, &file[..length]);
    }
    let file = Recording::new(0, &[33]).bytes(pen);
    for length in 0..=file.len() {
        byte_by_byte(pen, &file[..length]);
    }
    faults_not_yet_whole(pen);
}

/// Each part with a fault in it and every other byte of it wrong too, one byte short of being judged and less.
fn faults_not_yet_whole(pen: &mut Pen) {
    let recording = Recording { cpu_id: 5, events: vec![(34, 1)] };
    let sound = recording.bytes(pen);
    let closing = [&[0; 4][..], &[255; 20]].concat();
    for (start, part) in [(0, &[255; 8][..]), (8, &[255; 32]), (42, &[255; 32]), (8, &closing), (42, &closing)] {
        for short in [1, 2, 3, part.len() / 2, part.len() - 4, part.len() - 1] {
            let file = [&sound[..start], &part[..part.len() - short]].concat();
            whole(pen, &file);
            in_random_cuts(pen, &file);
        }
        // Whole, for comparison.
        whole(pen, &[&sound[..start], part].concat());
    }
}
