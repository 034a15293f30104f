//! Several reasons in one header: the first is told. Every choice of two or more that can hold together.

use super::bad::with_reasons;
use super::rings::{draw, readers_at, three_events, EVENTS};
use crate::generate::pen::Pen;

/// On a small ring each choice in every event, on a larger one each in one of them.
pub fn write(pen: &mut Pen) {
    let all: Vec<Vec<u8>> = (2..=6).flat_map(choices).collect();
    for (capacity, step) in [(256, 1), (1024, EVENTS)] {
        let tail_pos = pen.random.below(1 << 50);
        let sketch = three_events(capacity, tail_pos);
        draw(pen, &sketch);
        for index in 0..EVENTS {
            readers_at(pen, &sketch, index);
            for reasons in all.iter().skip(index % step).step_by(step) {
                with_reasons(pen, &sketch, index, reasons).tried(pen);
            }
        }
    }
}

/// A reason with one or more of those behind it. Not 3 with 4: if 32 bytes are left, no size under 32 is above what is left.
pub fn choices(first: u8) -> Vec<Vec<u8>> {
    let chosen = |bits: u32| (first..=7).filter(|reason| bits >> (reason - first) & 1 == 1).collect::<Vec<u8>>();
    let with_others = (3..1 << (8 - first)).step_by(2).map(chosen);
    with_others.filter(|reasons| !(reasons.contains(&3) && reasons.contains(&4))).collect()
}
