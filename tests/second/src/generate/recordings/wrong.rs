//! Lines of `record` with a wrong field, on a ring that would show it if one were obeyed.

use super::ALL;
use crate::generate::pen::Pen;
use crate::generate::sketch::Sketch;

const WRONG: [&str; 28] = [
    "record",
    "record 0",
    "record 0 0",
    "record 0 0 ",
    "record 0 0 1 ",
    "record 0 0 1 1",
    " record 0 0 1",
    "record  0 0 1",
    "record 0  0 1",
    "record 0 0  1",
    "record 4 0 1",
    "record 00 0 1",
    "record 0 00 1",
    "record 0 01 1",
    "record 0 0 00",
    "record 0 0 01",
    "record 0 0 40961",
    "record 0 0 18446744073709551615",
    "record 0 18446744073709551616 1",
    "record 0 99999999999999999999 1",
    "record 0 -1 1",
    "record 0 +1 1",
    "record 0 - 1",
    "record 0 0 -",
    "record 0 0 1\r",
    "records 0 0 1",
    "recor 0 0 1",
    "Record 0 0 1",
];

pub fn write(pen: &mut Pen) {
    Sketch::new(256, 200, &[40, 60]).draw(pen, 0);
    for line in WRONG {
        pen.say(line);
    }
    pen.say("outsum");
    pen.record(0, 0, ALL);
    pen.record(0, u64::MAX, ALL);
    // Buffers 1 to 3 hold rings of other lengths, or none.
    pen.say("size 3 0");
    for buffer in 0..4 {
        pen.record(buffer, 5, 12);
        pen.sum(buffer);
    }
    pen.say("outsum");
}
