//! Sound recordings: whole, byte by byte and in random cuts.

use super::cuts::{every_way, feed, in_random_cuts, whole};
use super::recording::Recording;
use crate::generate::pen::Pen;

const MAX: u64 = u64::MAX;

pub fn write(pen: &mut Pen) {
    without_events(pen);
    sizes(pen);
    sequences(pen);
    payloads_like_parts(pen);
    for _ in 0..36 {
        let file = Recording::random(pen, 3).bytes(pen);
        every_way(pen, &file);
    }
    one_after_the_other(pen);
}

fn without_events(pen: &mut Pen) {
    for cpu_id in [0, 1, 0x0100, 0x0102, 0x5350, u16::MAX] {
        let file = Recording::new(cpu_id, &[]).bytes(pen);
        every_way(pen, &file);
    }
}

/// Payloads of none, one byte and more; sizes of 256 and 512, whose first byte is zero and which are no closing.
fn sizes(pen: &mut Pen) {
    for (cpu_id, sizes) in [
        (0, &[32][..]),
        (u16::MAX, &[33]),
        (0x0201, &[32, 32, 32]),
        (0xFE01, &[40, 32, 63, 64]),
        (0x0180, &[256]),
        (7, &[32, 512, 33]),
    ] {
        let file = Recording::new(cpu_id, sizes).bytes(pen);
        every_way(pen, &file);
    }
}

/// Gaps at the front and in between, each byte of missed at work, the highest sequence, and as many events as sequences.
fn sequences(pen: &mut Pen) {
    let some = [
        vec![2],
        vec![5, 9],
        vec![1, 2, 3, 4],
        vec![1, 256, 257],
        vec![255, 65_536],
        vec![0x0123_4567_89AB_CDEF],
        vec![1 << 63, (1 << 63) + 1],
        vec![(1 << 32) - 1, 1 << 32],
        vec![MAX],
        vec![1, MAX - 1, MAX],
    ];
    for sequences in some {
        let events = sequences.into_iter().map(|sequence| (32 + pen.random.below(4), sequence)).collect();
        let file = Recording { cpu_id: 0x1234, events }.bytes(pen);
        every_way(pen, &file);
    }
}

/// Nothing in a payload is looked at: zeros, an opening, a closing.
fn payloads_like_parts(pen: &mut Pen) {
    let recording = Recording::new(0x0302, &[32 + 24, 32 + 8, 32 + 40]);
    let (opening, closing) = (recording.opening(), recording.closing());
    let zeros = recording.bytes_with(pen, |_, count| vec![0; count as usize]);
    let openings = recording.bytes_with(pen, |_, count| opening.iter().copied().cycle().take(count as usize).collect());
    let closings = recording.bytes_with(pen, |_, count| closing.iter().copied().cycle().take(count as usize).collect());
    for file in [zeros, openings, closings] {
        every_way(pen, &file);
    }
}

/// The reader is fresh after an end: nothing of a file's cpu_id, events or sequences is left.
fn one_after_the_other(pen: &mut Pen) {
    for _ in 0..12 {
        let file = Recording::random(pen, 5).bytes(pen);
        whole(pen, &file);
        in_random_cuts(pen, &file);
        pen.say("serial");
        pen.say("serial");
        whole(pen, &file);
        // The end of a file of no bytes.
        pen.say("end");
    }
    feed(pen, &[]);
    pen.say("end");
}
