//! Lines of `slip`, `copy` and `confirm` with a wrong field, on rings and slips that would show it if one were obeyed.

use super::rings::ALL;
use crate::generate::pen::Pen;
use crate::generate::sketch::Sketch;

const WRONG: [&str; 64] = [
    "slip",
    "slip 0",
    "slip 0 1 2 3",
    "slip 0 1 2 3 4 5",
    "slip 0 1 2 3 ",
    "slip 0 1 2 3 4 ",
    " slip 0 1 2 3 4",
    "slip  0 1 2 3 4",
    "slip 4 1 2 3 4",
    "slip 10 1 2 3 4",
    "slip -1 1 2 3 4",
    "slip 00 1 2 3 4",
    "slip 0 01 2 3 4",
    "slip 0 1 02 3 4",
    "slip 0 1 2 03 4",
    "slip 0 1 2 3 04",
    "slip 0 18446744073709551616 2 3 4",
    "slip 0 1 18446744073709551616 3 4",
    "slip 0 1 2 18446744073709551616 4",
    "slip 0 1 2 3 18446744073709551616",
    "slip 0 99999999999999999999 2 3 4",
    "slip 0 - 2 3 4",
    "slip 0 1 -2 3 4",
    "slip 0 1 2 +3 4",
    "slip 0 1 2 3 x",
    "slip 0 1 2 3 4\r",
    "slips 0 1 2 3 4",
    "sli 0 1 2 3 4",
    "Slip 0 1 2 3 4",
    "copy",
    "copy 0",
    "copy 0 0 0",
    "copy 0 0 0 ",
    "copy 0 0 0 40960 ",
    "copy 0 0 0 40960 0",
    " copy 0 0 0 40960",
    "copy  0 0 0 40960",
    "copy 0 0  0 40960",
    "copy 4 0 0 40960",
    "copy 0 4 0 40960",
    "copy 0 0 4 40960",
    "copy 0 0 0 40961",
    "copy 0 0 0 18446744073709551615",
    "copy 0 0 0 040",
    "copy 0 0 00 40960",
    "copy 0 0 0 -",
    "copy 0 0 - 40960",
    "copys 0 0 0 40960",
    "Copy 0 0 0 40960",
    "confirm",
    "confirm 0",
    "confirm 0 0",
    "confirm 0 0 ",
    "confirm 0 0 0 ",
    "confirm 0 0 0 0",
    " confirm 0 0 0",
    "confirm 0  0 0",
    "confirm 4 0 0",
    "confirm 0 4 0",
    "confirm 0 0 4",
    "confirm 0 0 18446744073709551616",
    "confirm 0 0 00",
    "confirms 0 0 0",
    "CONFIRM 0 0 0",
];

/// Every line that shows a record or a slip follows. A slip may hold any numbers.
pub fn write(pen: &mut Pen) {
    Sketch::new(256, 200, &[40, 60]).draw(pen, 0);
    pen.say("attach 0 0");
    pen.copy(0, 0, 0, ALL);
    for line in WRONG {
        pen.say(line);
    }
    pen.say("outsum");
    pen.confirm(0, 0, 0);
    pen.say("slip 0 18446744073709551615 18446744073709551615 18446744073709551615 18446744073709551615");
    pen.confirm(0, 0, 0);
    pen.copy(0, 0, 0, ALL);
    pen.confirm(0, 0, 0);
    pen.say("size 3 0");
    for buffer in 0..4 {
        pen.copy(buffer, 0, 3, ALL);
        pen.confirm(buffer, 0, 3);
        pen.sum(buffer);
    }
    pen.say("outsum");
}
