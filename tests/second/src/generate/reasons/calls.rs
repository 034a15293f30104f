//! Every call that is refused for a bad event. The ring's sum follows, since a refusal changes no byte.

use crate::generate::calls::{FOLLOWS, READS};
use crate::generate::pen::Pen;

/// As much as can be lent.
pub const ALL: u64 = 40_960;

/// An emission too, unless only the sequence is bad: it doesn't look at it and would go on.
pub fn every_call(pen: &mut Pen, capacity: u64) {
    let inspected = looks(pen);
    if !inspected.ends_with(" why 7") {
        largest_emission(pen, capacity);
    }
    sums(pen);
}

/// All but the emission, with the inspection's answer. What is lent or placed doesn't count before the event does.
pub fn looks(pen: &mut Pen) -> String {
    let lent = pen.random.pick(&[0, 31, ALL]);
    let placed = pen.random.pick(&[0, 8, 100, u64::MAX]);
    let inspected = pen.say("inspect 0");
    pen.read(0, READS, lent);
    pen.say(format!("follow 0 {FOLLOWS}"));
    pen.record(0, placed, lent);
    pen.say("swap 0 1 0");
    inspected
}

/// Of half the capacity, which makes the longest walk.
pub fn largest_emission(pen: &mut Pen, capacity: u64) -> String {
    pen.say(format!("emitlen 0 0 1 1 1 {}", capacity / 2 - 32))
}

/// The other buffers are looked at less often: few slips would reach them.
pub fn sums(pen: &mut Pen) {
    pen.sum(0);
    if pen.random.one_in(12) {
        pen.sum(1);
        pen.say("outsum");
    }
}
