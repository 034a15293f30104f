//! Each byte of a recording altered alone, and the recording as it was now and then.

use super::beside::Beside;
use super::rings::small;
use crate::generate::pen::Pen;

const LONGEST: usize = 300;

pub fn write(pen: &mut Pen) {
    for (turn, sketch) in small().iter().enumerate() {
        let beside = Beside::of_turn(turn);
        let own = beside.drawn(pen, sketch);
        if own.len() < LONGEST {
            each_byte(pen, beside, &own);
        }
    }
}

fn each_byte(pen: &mut Pen, beside: Beside, own: &[u8]) {
    for place in 0..own.len() {
        let change = pen.random.pick(&[1, 16, 128, 255]);
        beside.ask_with_byte(pen, own, place, change);
        if place % 5 == 0 {
            beside.ask(pen, own);
        }
    }
}
