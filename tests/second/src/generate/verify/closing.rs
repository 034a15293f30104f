//! The closing: each byte of its zeros and of both counts.

use super::beside::Beside;
use super::rings::small;
use crate::generate::pen::Pen;

const CHANGES: [u8; 3] = [1, 0x80, 0xFF];

pub fn write(pen: &mut Pen) {
    for (turn, sketch) in small().iter().enumerate() {
        let beside = Beside::of_turn(turn + 3);
        let own = beside.drawn(pen, sketch);
        for place in own.len() - 24..own.len() {
            for change in CHANGES {
                beside.ask_with_byte(pen, &own, place, change);
            }
        }
        beside.ask(pen, &own);
    }
}
