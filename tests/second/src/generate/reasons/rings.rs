//! Rings of three events. More than half the capacity lies behind the start of each, so a large emission looks at all of them.

use crate::generate::calls::set_readers;
use crate::generate::pen::Pen;
use crate::generate::sketch::Sketch;

pub const EVENTS: usize = 3;

/// No byte of cpu_id is zero, and the two differ. The generation lets a reader of the one before follow.
const CPU_ID: u16 = 0x0102;
const GENERATION: u64 = 2;

/// The last event is larger than half the capacity.
pub fn three_events(capacity: u64, tail_pos: u64) -> Sketch {
    let events = vec![(capacity / 8 + 8, 7), (capacity / 8 + 16, 8), (capacity / 2 + 22, 12)];
    Sketch { cpu_id: CPU_ID, generation: GENERATION, events, ..Sketch::new(capacity, tail_pos, &[]) }
}

/// With the event of a given index so many bytes before the data's end, in some lap.
pub fn near_the_end(capacity: u64, index: usize, before_end: u64, laps: u64) -> Sketch {
    let mut sketch = three_events(capacity, 0);
    sketch.tail_pos = capacity * laps - before_end - sketch.start(index);
    sketch
}

/// Drawn into buffer 0, with a writer's record that agrees.
pub fn draw(pen: &mut Pen, sketch: &Sketch) {
    sketch.draw(pen, 0);
    pen.writer(0, sketch.events.len() as u64, 0, 0);
}

/// Both readers come to the event of a given index next.
pub fn readers_at(pen: &mut Pen, sketch: &Sketch, index: usize) {
    set_readers(pen, sketch.start(index), before(sketch, index), index as u64, sketch.generation - 1);
}

/// The sequence that the event's has to be above.
pub fn before(sketch: &Sketch, index: usize) -> u64 {
    sketch.events[..index].last().map_or(0, |(_, sequence)| *sequence)
}
