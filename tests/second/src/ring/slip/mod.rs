//! Reading in two steps, beside a writer that goes on: change request K6.

mod confirm;
mod copy;
#[cfg(test)]
mod tests;

pub use confirm::{confirm, Confirmed};
pub use copy::{copy, Copied};

use super::page::Page;
use super::Reader;

/// What copying hands out and confirming is given. One made by hand may hold any numbers.
#[derive(Clone, Copy, Debug, Default, PartialEq, Eq)]
pub struct Slip {
    pub position: u64,
    pub size: u64,
    pub sequence: u64,
    pub tail_seen: u64,
}

/// Refusal 13 by read's conditions.
fn no_reader_of(page: &Page, reader: Reader) -> bool {
    reader.handed > reader.last || reader.read_pos > page.write_pos
}
