//! States at the edges of the paper's conditions, and several refusals at once.

mod counts;
mod order;
mod pages;
mod positions;
mod sizes;
mod wakes;

use super::pen::Pen;

pub fn write(pen: &mut Pen) {
    pages::write(pen);
    wakes::on_one_ring(pen);
    positions::write(pen);
    counts::write(pen);
    sizes::write(pen);
    order::write(pen);
    // Last, so that the random numbers in the lines above stay as they were.
    wakes::with_each_flag(pen);
}
