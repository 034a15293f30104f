//! The conditions of refusal 13 at a confirm, by the counts' own reading of the numbers.

use crate::count_rings::write;
use crate::ring::{Reader, Slip};

pub const HANDED: usize = 0;
pub const READ_POS: usize = 1;
pub const POSITION: usize = 2;
pub const SIZE: usize = 3;
pub const END: usize = 4;
pub const SEQUENCE: usize = 5;

pub const CONDITIONS: [&str; 6] = [
    "handed above last",
    "read_pos above write_pos",
    "position below read_pos",
    "size under 32",
    "end above write_pos",
    "sequence not above last",
];

/// Those that hold on a ring that passes 1 to 6.
pub fn holding(ring: &[u8], reader: Reader, slip: Slip) -> Vec<usize> {
    let end = u128::from(slip.position) + u128::from(slip.size);
    let mut holding = without_ring(reader, slip);
    if reader.read_pos > write(ring) {
        holding.push(READ_POS);
    }
    if end > u128::from(write(ring)) {
        holding.push(END);
    }
    holding.sort_unstable();
    holding
}

/// Those that the ring has no part in.
pub fn without_ring(reader: Reader, slip: Slip) -> Vec<usize> {
    let holds = [
        (HANDED, reader.handed > reader.last),
        (POSITION, slip.position < reader.read_pos),
        (SIZE, slip.size < 32),
        (SEQUENCE, slip.sequence <= reader.last),
    ];
    holds.into_iter().filter(|(_, holds)| *holds).map(|(condition, _)| condition).collect()
}
