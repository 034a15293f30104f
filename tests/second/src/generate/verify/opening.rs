//! The opening: each byte of mark, version and cpu_id, the zero byte, and others in the place of the whole.

use super::beside::Beside;
use super::rings::small;
use crate::generate::pen::Pen;

const CHANGES: [u8; 3] = [1, 0x20, 0xFF];

/// In the place of the mark and the version.
const FRONTS: [[u8; 5]; 6] = [*b"spl\x01\0", *b"SPL\0\x01", *b"SPL\x02\0", *b"SPL\x01\x01", *b"LPS\x01\0", [0; 5]];

pub fn write(pen: &mut Pen) {
    for (turn, sketch) in small().iter().enumerate() {
        let beside = Beside::of_turn(turn + 5);
        let own = beside.drawn(pen, sketch);
        for place in 0..8 {
            for change in CHANGES {
                beside.ask_with_byte(pen, &own, place, change);
            }
        }
        other_fronts(pen, beside, &own);
    }
}

/// With cpu_id's bytes exchanged it is the same if they are.
fn other_fronts(pen: &mut Pen, beside: Beside, own: &[u8]) {
    for front in FRONTS {
        beside.ask(pen, &[&front[..], &own[5..]].concat());
    }
    let (low, high) = (own[5], own[6]);
    beside.ask(pen, &[&own[..5], &[high, low], &own[7..]].concat());
    beside.ask(pen, own);
}
