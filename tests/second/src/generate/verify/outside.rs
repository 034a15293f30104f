//! Bytes of the ring that are no part of its recording: whatever they are, the answers stay.

use super::beside::{lay, Beside};
use super::images::{place, write_pos};
use super::rings::smallest;
use crate::generate::pen::Pen;

const ROUNDS: usize = 9;

pub fn write(pen: &mut Pen) {
    for (turn, sketch) in smallest().iter().enumerate() {
        let beside = Beside::of_turn(turn + 6);
        let own = beside.drawn(pen, sketch);
        for _ in 0..ROUNDS {
            scribble(pen, beside.ring);
            beside.ask(pen, &own);
        }
        let place = pen.random.below(own.len() as u64) as usize;
        beside.ask_with_byte(pen, &own, place, 0x08);
    }
}

/// The flag, the consumer's other bytes, bytes that nobody looks at, the counter, the generation, free room in the data region.
fn scribble(pen: &mut Pen, buffer: usize) {
    let mut ring = pen.machine.buffers[buffer].clone();
    let noise = pen.random.bytes(4);
    let at = match pen.random.below(8) {
        0 | 1 => 4096,
        2 => 4097 + usize::from(noise[0]) * 16,
        3 => 192 + usize::from(noise[0]) * 15,
        4 => 128,
        5 => 33,
        _ => place(&ring, write_pos(&ring) + u64::from(noise[0] % 64)),
    };
    ring[at] = noise[1] | 1;
    lay(pen, buffer, &ring);
}
