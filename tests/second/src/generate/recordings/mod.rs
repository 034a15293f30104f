//! Recordings: of rings of every kind in pieces of several sizes, at places near and past their end, of rings that change
//! between the pieces, and refused.

mod capacities;
mod changes;
mod damaged;
mod drawn;
mod ends;
mod lived;
mod pieces;
pub(super) mod refusals;
mod wrong;

use super::pen::Pen;

/// As much as can be lent.
const ALL: u64 = 40_960;

pub fn write(pen: &mut Pen) {
    // First the longest, so that what later calls must leave of the output buffer isn't zero.
    capacities::filled(pen);
    drawn::write(pen);
    lived::write(pen);
    capacities::small_recordings(pen);
    ends::write(pen);
    changes::write(pen);
    damaged::write(pen);
    refusals::write(pen);
    wrong::write(pen);
}

/// Of a ring that passes 1 to 6: eight bytes, the events, 24 more.
fn length(pen: &Pen, buffer: usize) -> u64 {
    8 + (pen.write_pos(buffer) - pen.tail_pos(buffer)) + 24
}
