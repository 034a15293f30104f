//! Lines of `verify` with a wrong field, on a ring and a recording that would show it if one were obeyed.

use super::beside::{lay, Beside};
use crate::generate::pen::Pen;
use crate::generate::sketch::Sketch;

const WRONG: [&str; 58] = [
    "verify",
    "verify ",
    "verify 0",
    "verify 1",
    "verify 0 ",
    "verify  0",
    "verify 0 1 ",
    "verify 0 1 2",
    "verify 0 1 0",
    "verify 0 1 1",
    "verify 1 0 0",
    "verify 0 1 -",
    "verify 0 1 40960",
    " verify 0 1",
    "verify  0 1",
    "verify 0  1",
    "verify\t0 1",
    "verify 0\t1",
    "verify 0 1\r",
    "verify 0 1\0",
    "verify 0 0",
    "verify 1 1",
    "verify 2 2",
    "verify 3 3",
    "verify 4 4",
    "verify 0 4",
    "verify 4 0",
    "verify 1 4",
    "verify 4 1",
    "verify 3 4",
    "verify 3 5",
    "verify 2 9",
    "verify 10 1",
    "verify 0 10",
    "verify 0 11",
    "verify 0 255",
    "verify 0 256",
    "verify 256 1",
    "verify 0 4294967297",
    "verify 4294967296 1",
    "verify 0 18446744073709551615",
    "verify 0 18446744073709551616",
    "verify 18446744073709551616 1",
    "verify 0 18446744073709551617",
    "verify 0 99999999999999999999",
    "verify 00 1",
    "verify 0 01",
    "verify 00 0",
    "verify -0 1",
    "verify 0 -1",
    "verify 0 +1",
    "verify 0 -",
    "verify - 1",
    "verify 0 x",
    "verify b c",
    "verifys 0 1",
    "verif 0 1",
    "Verify 0 1",
];

pub fn write(pen: &mut Pen) {
    let beside = Beside { ring: 0, recording: 1 };
    let own = beside.drawn(pen, &Sketch::new(256, 200, &[40, 61]));
    lay(pen, 1, &own);
    for line in WRONG {
        pen.say(line);
    }
    beside.verify(pen);
    pen.say("size 3 0");
    for buffer in 0..4 {
        pen.sum(buffer);
    }
    pen.say("outsum");
    for turn in 0..12 {
        Beside::of_turn(turn).verify(pen);
    }
}
