//! Events over the data's end: at each byte of the header and at some of the payload, met by every call; headers that are bad there.

mod headers;
mod laps;

use super::pen::Pen;
use super::sketch::Sketch;

/// As much as can be lent.
const ALL: u64 = 40_960;

pub fn write(pen: &mut Pen) {
    fill_output(pen);
    laps::write(pen);
    headers::write(pen);
}

/// So that a byte put behind an event or a piece is seen in the output's sum.
fn fill_output(pen: &mut Pen) {
    Sketch::new(1024, 1000, &[1024]).draw(pen, 0);
    pen.say("attach 0 0");
    pen.read(0, 0, ALL);
    pen.say("outsum");
}
