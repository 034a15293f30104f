//! Recordings that arrive over a serial line: sound ones cut in every way, each fault alone and with others, files cut off and
//! files that go on.

mod after;
mod altered;
mod anew;
mod cut_off;
mod cuts;
mod empty;
mod faults;
mod large;
mod recording;
mod rings;
mod sizes;
mod sound;
mod splits;
mod together;
mod wrong;

use super::pen::Pen;

pub fn write(pen: &mut Pen) {
    sound::write(pen);
    rings::write(pen);
    splits::write(pen);
    empty::write(pen);
    faults::write(pen);
    together::write(pen);
    altered::write(pen);
    cut_off::write(pen);
    after::write(pen);
    anew::write(pen);
    sizes::write(pen);
    large::write(pen);
    wrong::write(pen);
}
