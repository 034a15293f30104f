//! Bad events, for the reason that is told: each value at a reason's edge, several reasons at once, in each event of a ring and
//! in headers over the data's end, met by every call that looks at events.

mod alone;
pub(super) mod bad;
mod calls;
mod capacities;
mod left;
mod passing;
pub(super) mod rings;
mod sequences;
pub(super) mod together;
mod two_events;
mod wrapped;

use super::pen::Pen;

pub fn write(pen: &mut Pen) {
    pen.say("size 1 8448");
    alone::write(pen);
    together::write(pen);
    wrapped::write(pen);
    left::write(pen);
    sequences::write(pen);
    passing::write(pen);
    two_events::write(pen);
    capacities::write(pen);
}
