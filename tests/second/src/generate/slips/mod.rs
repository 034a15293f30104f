//! Reading in two steps: copies and confirms of every answer, with emissions in between and with slips made by hand.

mod again;
mod between;
mod conditions;
mod copies;
mod damaged;
mod elsewhere;
mod high;
mod laps;
mod lives;
mod pages;
mod rings;
mod splits;
mod wrong;

use super::pen::Pen;

pub fn write(pen: &mut Pen) {
    lives::write(pen);
    laps::write(pen);
    between::write(pen);
    splits::write(pen);
    copies::write(pen);
    damaged::write(pen);
    pages::write(pen);
    conditions::write(pen);
    again::write(pen);
    elsewhere::write(pen);
    high::write(pen);
    wrong::write(pen);
}
