//! Another maker's recording beside a ring: the ring's own, altered in each of its parts, shorter and longer, of other rings and
//! other moments, put together wrongly, and beside rings that are refused.

mod any_bytes;
mod beside;
mod capacities;
mod closing;
mod counts;
mod damaged;
mod data_end;
mod elsewhere;
mod every_byte;
mod images;
mod lengths;
mod makers;
mod moments;
mod opening;
mod orders;
mod outside;
mod parts;
mod refusals;
mod rings;
mod seams;
mod several;
mod together;
mod wrong;

use super::pen::Pen;

pub fn write(pen: &mut Pen) {
    // First a recording that `record` writes, so that what no later line may change of the output buffer isn't zero.
    capacities::write(pen);
    every_byte::write(pen);
    opening::write(pen);
    closing::write(pen);
    seams::write(pen);
    data_end::write(pen);
    lengths::write(pen);
    together::write(pen);
    counts::write(pen);
    makers::write(pen);
    elsewhere::write(pen);
    moments::write(pen);
    outside::write(pen);
    orders::write(pen);
    refusals::write(pen);
    damaged::write(pen);
    several::write(pen);
    any_bytes::write(pen);
    wrong::write(pen);
}
