//! The data's end among the events: the last bytes before it and the first behind it, and recordings that end there, with each
//! length of the first stretch.

use super::beside::{with_byte, Beside};
use crate::generate::pen::Pen;
use crate::generate::sketch::Sketch;

/// The second event begins at the data's end too, and with the last length the closing does.
const SIZES: [u64; 2] = [33, 34];

pub fn write(pen: &mut Pen) {
    for before_end in 1..=SIZES.iter().sum() {
        let turn = before_end as usize;
        let capacity = [256, 512, 1024][turn % 3];
        let tail_pos = capacity * (2 + before_end % 7) - before_end;
        let beside = Beside::of_turn(turn);
        let own = beside.drawn(pen, &Sketch { cpu_id: turn as u16 * 515, ..Sketch::new(capacity, tail_pos, &SIZES) });
        around(pen, beside, &own, 8 + turn);
        for length in [turn + 7, turn + 8, turn + 9] {
            beside.ask(pen, &own[..length]);
        }
    }
}

/// The recording as it was comes between all of them.
fn around(pen: &mut Pen, beside: Beside, own: &[u8], data_end: usize) {
    let change = pen.random.pick(&[1, 2, 0x80, 0xFF]);
    let (before, behind) = (with_byte(own, data_end - 1, change), with_byte(own, data_end, change));
    let both = with_byte(&before, data_end, change);
    let (further_before, further_behind) = (with_byte(own, data_end - 2, change), with_byte(own, data_end + 1, change));
    for altered in [before, behind, both, further_before, further_behind] {
        beside.ask(pen, own);
        beside.ask(pen, &altered);
    }
    beside.ask(pen, own);
}
