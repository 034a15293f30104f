//! Every event_size that is too small, and sizes whose low bytes are zero or that no file here reaches.

use super::cuts::{at_places, end, feed, in_random_cuts, some_way, whole};
use super::recording::Recording;
use crate::generate::pen::Pen;

pub fn write(pen: &mut Pen) {
    too_small(pen);
    far_ahead(pen);
    closing_with_other_bytes(pen);
}

/// From 1 to 31 and then 32, of the first event and of the second, in a header that is sound but for it.
fn too_small(pen: &mut Pen) {
    let recording = Recording::new(0x0701, &[33, 32]);
    for event_size in 1..=32 {
        for index in 0..2 {
            let mut file = recording.bytes(pen);
            file[recording.start(index)] = event_size;
            some_way(pen, &file);
        }
    }
}

/// Sizes with zeros in the low bytes, and those whose payload has only zeros, or 24, in all but the highest.
const FAR_AHEAD: [u64; 14] = [
    0x0000_0100,
    0x0001_0000,
    0x0001_0020,
    0x0001_0038,
    0x0100_0000,
    0x0100_0020,
    0x0100_0038,
    0x0101_0000,
    0x8000_0000,
    0x8000_0020,
    0x8000_0038,
    0xFF00_0000,
    0xFFFF_FFFE,
    0xFFFF_FFFF,
];

/// The header is told and so is what there is of the payload; then the file has ended early.
fn far_ahead(pen: &mut Pen) {
    for size in FAR_AHEAD {
        let recording = Recording { cpu_id: 0x0020, events: vec![(size, 1 + pen.random.below(9))] };
        let mut file = [recording.opening(), recording.header(pen, 0)].concat();
        whole(pen, &file);
        // Zeros and more that are no closing and no header.
        file.extend_from_slice(&[0; 24]);
        file.extend_from_slice(&pen.random.bytes(40));
        whole(pen, &file);
        in_random_cuts(pen, &file);
        for bytes in 1..=4 {
            at_places(pen, &file, &[8 + bytes]);
        }
    }
}

/// Four zero bytes mean the closing whatever follows; three don't.
fn closing_with_other_bytes(pen: &mut Pen) {
    let recording = Recording::new(0x0020, &[32]);
    let sound = recording.bytes(pen);
    let header = recording.header(pen, 0);
    for start in [8, 40] {
        for zeros in 0..=8 {
            let mut file = [&sound[..start], &header, &sound[..8]].concat();
            file[start..start + zeros].fill(0);
            some_way(pen, &file);
            // Known by its first bytes, judged with its last.
            feed(pen, &file[..start + 23]);
            feed(pen, &file[start + 23..start + 24]);
            feed(pen, &file[start + 24..start + 32]);
            end(pen);
        }
    }
}
