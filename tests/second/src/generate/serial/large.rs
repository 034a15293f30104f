//! Payloads of thousands of bytes, and as many events as one piece can hold.

use super::cuts::{at_places, in_random_cuts, whole};
use super::recording::Recording;
use crate::generate::pen::Pen;

/// As many bytes as a line can feed.
const LONGEST_PIECE: usize = 40_960;

pub fn write(pen: &mut Pen) {
    thousands(pen);
    most_events(pen);
}

/// Stretches over several pieces, which end at a piece's end, one byte before it and one behind.
fn thousands(pen: &mut Pen) {
    let recording = Recording { cpu_id: 0x0A0B, events: vec![(4096, 3), (33, 4), (1000, 9)] };
    let file = recording.bytes_with(pen, |_, count| vec![0x5A; count as usize]);
    whole(pen, &file);
    in_random_cuts(pen, &file);
    for beside in [-1, 0, 1] {
        let end = (recording.start(1) as isize + beside) as usize;
        at_places(pen, &file, &[40, 1000, 1001, end - 1, end]);
    }
}

/// Told in one answer; one payload makes the piece as long as it can be.
fn most_events(pen: &mut Pen) {
    let mut sizes = vec![32; (LONGEST_PIECE - 32) / 32 - 1];
    sizes[700] = 64;
    let file = Recording::new(0x0100, &sizes).bytes(pen);
    assert_eq!(file.len(), LONGEST_PIECE);
    whole(pen, &file);
}
