//! Rings put together byte by byte: events across the end of the data region, empty and full rings, sequences, positions.

use super::pieces::{every_way, in_large_pieces};
use crate::generate::pen::Pen;
use crate::generate::sketch::Sketch;
use crate::ring::HIGHEST_POSITION;

const MAX: u64 = u64::MAX;

pub fn write(pen: &mut Pen) {
    headers_across_the_end(pen);
    payload_across_the_end(pen);
    empty(pen);
    full(pen);
    sequences(pen);
    positions(pen);
}

/// The second event begins so many bytes before the end of the data region; with 0 the first one ends there.
fn headers_across_the_end(pen: &mut Pen) {
    for before_end in [0, 13] {
        header_across_the_end(pen, before_end);
        every_way(pen, 0);
    }
    for before_end in [1, 8, 29, 31, 32] {
        header_across_the_end(pen, before_end);
        in_large_pieces(pen, 0);
    }
}

fn header_across_the_end(pen: &mut Pen, before_end: u64) {
    Sketch { cpu_id: 0x0102, ..Sketch::new(256, 256 * 6 - 40 - before_end, &[40, 45]) }.draw(pen, 0);
}

fn payload_across_the_end(pen: &mut Pen) {
    let events = vec![(70, 41), (33, 44)];
    Sketch { cpu_id: 0xFF00, generation: 7, events, ..Sketch::new(256, 256 * 5 - 50, &[]) }.draw(pen, 0);
    every_way(pen, 0);
}

/// Fresh, and with the tail at write_pos and old events in the data region.
fn empty(pen: &mut Pen) {
    pen.fresh(0, 256, 0x00FF);
    every_way(pen, 0);
    let sketch = Sketch { cpu_id: 0xFFFF, ..Sketch::new(256, 700, &[60, 80]) };
    sketch.draw(pen, 0);
    pen.put_word(0, 72, sketch.write_pos());
    every_way(pen, 0);
}

/// write_pos - tail_pos is the capacity; once with one event in all of it.
fn full(pen: &mut Pen) {
    let events = vec![(64, 9), (100, 10), (92, 12)];
    Sketch { cpu_id: 0xABCD, events, ..Sketch::new(256, 1000, &[]) }.draw(pen, 0);
    every_way(pen, 0);
    Sketch { generation: 2, ..Sketch::new(256, 256 * 3, &[256]) }.draw(pen, 0);
    in_large_pieces(pen, 0);
    Sketch::new(512, 333, &[32; 16]).draw(pen, 0);
    in_large_pieces(pen, 0);
}

/// Missed is 0, or has each of its bytes at work.
fn sequences(pen: &mut Pen) {
    for events in [vec![(33, MAX - 2), (40, MAX)], vec![(32, 1), (35, 2)]] {
        Sketch { cpu_id: 0x0201, events, ..Sketch::new(256, 500, &[]) }.draw(pen, 0);
        every_way(pen, 0);
    }
    for last in [257, 65_538, 1 << 32, (1 << 63) + 2, 0x0123_4567_89AB_CDEF, MAX] {
        let events = vec![(34, last - 1), (32, last)];
        Sketch { cpu_id: 0x1234, events, ..Sketch::new(256, 200, &[]) }.draw(pen, 0);
        in_large_pieces(pen, 0);
    }
}

/// write_pos at 2^62, which is the end of the data region too; a wrapped event below it; an empty ring there.
fn positions(pen: &mut Pen) {
    Sketch { cpu_id: 0x8001, ..Sketch::new(256, HIGHEST_POSITION - 85, &[40, 45]) }.draw(pen, 0);
    every_way(pen, 0);
    Sketch { cpu_id: 0x0180, ..Sketch::new(256, HIGHEST_POSITION - 256 - 40, &[80]) }.draw(pen, 0);
    every_way(pen, 0);
    for (tail_pos, sizes) in [(HIGHEST_POSITION, &[][..]), (HIGHEST_POSITION - 512, &[300, 212]), ((1 << 32) - 20, &[50, 60])] {
        Sketch::new(512, tail_pos, sizes).draw(pen, 0);
        in_large_pieces(pen, 0);
    }
}
