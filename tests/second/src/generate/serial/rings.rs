//! Recordings of rings, fed as `record` gave them.

use super::cuts::{byte_by_byte, end, feed, in_random_cuts, whole};
use crate::generate::pen::Pen;
use crate::generate::sketch::Sketch;

/// As much as can be lent.
const ALL: u64 = 40_960;

pub fn write(pen: &mut Pen) {
    lived(pen);
    drawn(pen);
    pen.say("outsum");
    for buffer in 0..4 {
        pen.sum(buffer);
    }
}

/// A ring that is overwritten, drops and is swapped, recorded after every few events.
fn lived(pen: &mut Pen) {
    pen.fresh(0, 256, 0x0C0D);
    pen.writer(0, 0, 0, 0);
    for turn in 0..24 {
        let payload = pen.random.pick(&[0, 3, 20, 50, 96, 97]);
        pen.emit(0, 0, payload);
        match turn % 4 {
            0 => piece_after_piece(pen, 0, 33),
            1 => piece_after_piece(pen, 0, 100),
            2 => joined(pen, 0),
            _ => {}
        }
    }
    pen.say("size 1 8704");
    pen.say("swap 0 1 0");
    pen.emit(1, 0, 200);
    for buffer in [0, 1] {
        joined(pen, buffer);
        piece_after_piece(pen, buffer, 64);
    }
}

fn drawn(pen: &mut Pen) {
    let high = vec![(33, u64::MAX - 2), (40, u64::MAX)];
    for sketch in [
        Sketch { cpu_id: 0, ..Sketch::new(256, 256 * 6 - 53, &[40, 45]) },
        Sketch { cpu_id: u16::MAX, ..Sketch::new(256, 1000, &[256]) },
        Sketch { cpu_id: 0x0201, events: high, ..Sketch::new(256, 500, &[]) },
        Sketch::new(512, 333, &[32; 16]),
        Sketch { cpu_id: 0x0102, ..Sketch::new(512, (1 << 62) - 512, &[300, 212]) },
        Sketch::new(256, 700, &[]),
    ] {
        sketch.draw(pen, 2);
        joined(pen, 2);
        piece_after_piece(pen, 2, 31);
    }
}

/// Nothing is held but the piece: what one call gives goes to the other.
fn piece_after_piece(pen: &mut Pen, buffer: usize, lent: u64) {
    let mut placed = 0;
    loop {
        let piece = recorded(pen, buffer, placed, lent);
        feed(pen, &piece);
        placed += piece.len() as u64;
        if piece.is_empty() {
            break;
        }
    }
    end(pen);
}

fn joined(pen: &mut Pen, buffer: usize) {
    let recording = recorded(pen, buffer, 0, ALL);
    whole(pen, &recording);
    in_random_cuts(pen, &recording);
    if recording.len() < 150 {
        byte_by_byte(pen, &recording);
    }
}

/// The piece stands at the output's front.
fn recorded(pen: &mut Pen, buffer: usize, placed: u64, lent: u64) -> Vec<u8> {
    let answer = pen.record(buffer, placed, lent);
    let count: usize = answer.split(' ').nth(1).map_or(0, |count| count.parse().unwrap());
    pen.machine.output[..count].to_vec()
}
