//! Positions: tail against write, distances against the capacity, and the way up to 2^62.

use crate::generate::calls::{set_readers, Calls};
use crate::generate::pen::Pen;
use crate::generate::sketch::Sketch;
use crate::ring::HIGHEST_POSITION;

pub fn write(pen: &mut Pen) {
    pairs(pen);
    lapped_and_empty(pen);
    for below in [0, 1, 31, 32, 33, 64, 127, 128, 129, 300] {
        up_to_the_highest(pen, 256, below);
        up_to_the_highest(pen, 512, below);
        up_to_the_highest(pen, 1024, below);
    }
    read_positions(pen);
}

fn pairs(pen: &mut Pen) {
    const TOP: u64 = HIGHEST_POSITION;
    const MAX: u64 = u64::MAX;
    pen.say("size 1 8448");
    let rows = [
        (0, 0),
        (1, 0),
        (0, 1),
        (0, 31),
        (0, 32),
        (0, 256),
        (0, 257),
        (1, 257),
        (1, 258),
        (256, 256),
        (256, 255),
        (300, 556),
        (300, 557),
        (TOP, TOP),
        (TOP - 1, TOP),
        (TOP - 256, TOP),
        (TOP - 257, TOP),
        (TOP, TOP + 1),
        (TOP + 1, TOP + 1),
        (TOP + 1, TOP),
        (0, TOP),
        (MAX, MAX),
        (MAX, 0),
        (0, MAX),
        (MAX - 256, MAX),
        (1 << 63, 1 << 63),
        (1 << 32, 1 << 32),
        (1 << 32, (1 << 32) + 256),
        (5, (1 << 32) + 5),
        (MAX - 100, 100),
        (TOP - 40, TOP - 8),
    ];
    for (tail, write) in rows {
        pen.fresh(0, 256, 7);
        pen.put_word(0, 72, tail);
        pen.put_word(0, 64, write);
        pen.writer(0, 5, 1, 2);
        set_readers(pen, tail.min(write), 0, 0, 0);
        Calls { payload: 90, ..Calls::default() }.every(pen);
    }
}

/// A reader below the tail of a ring that holds nothing: EMPTY and MOVED hand back the moved read_pos.
fn lapped_and_empty(pen: &mut Pen) {
    for position in [1, 255, 256, 600, 1 << 32, HIGHEST_POSITION] {
        Sketch { generation: 2, ..Sketch::new(256, position, &[]) }.draw(pen, 0);
        looks_from(pen, 0, 2);
        looks_from(pen, position - 1, 1);
        looks_from(pen, position / 2, 3);
        looks_from(pen, position, 1);
        looks_from(pen, position + 1, 2);
    }
}

fn looks_from(pen: &mut Pen, read_pos: u64, generation: u64) {
    set_readers(pen, read_pos, 7, 2, generation);
    Calls::default().looks(pen);
}

/// A ring whose write_pos is a little below 2^62 takes events until there is no way on; a swap begins again at 0.
fn up_to_the_highest(pen: &mut Pen, capacity: u64, below: u64) {
    let sizes = [capacity / 4 + 3, capacity / 4, capacity / 4 - 1];
    let live: u64 = sizes.iter().sum();
    let sketch = Sketch { generation: 2, ..Sketch::new(capacity, HIGHEST_POSITION - below - live, &sizes) };
    sketch.draw(pen, 0);
    pen.writer(0, 3, 0, 0);
    set_readers(pen, sketch.tail_pos, 0, 0, 1);
    pen.fresh(1, 512, 0);
    Calls::default().looks(pen);
    for payload in [0, 1, 32, 0, 95, 96, 97, 0] {
        pen.emit(0, 0, payload.min(capacity / 2 - 31));
    }
    pen.read(0, 0, 40_960);
    pen.sum(0);
    pen.say("swap 0 1 0");
    pen.sum(0);
    pen.sum(1);
    pen.say("follow 1 1");
    pen.read(1, 1, 40_960);
    pen.emit(1, 0, 70);
    pen.say("inspect 1");
}

/// Every place a reader may stand at, in a ring with an event hidden in another's payload.
fn read_positions(pen: &mut Pen) {
    let sketch = Sketch { generation: 2, ..Sketch::new(256, 500, &[64, 100, 90]) };
    sketch.draw(pen, 0);
    let hidden = sketch.event(pen, 35, 2);
    sketch.put_at(pen, 0, sketch.start(1) + 40, &hidden);
    for read_pos in [0, 499, 500, 501, 563, 564, 565, 603, 604, 605, 638, 639, 663, 664, 722, 723, 753, 754, 755, u64::MAX] {
        read_at(pen, read_pos, 0);
        read_at(pen, read_pos, 1);
        read_at(pen, read_pos, 2);
        pen.reader(0, read_pos, 0, 0, 1);
        pen.say("follow 0 0");
        pen.say("outsum");
    }
}

fn read_at(pen: &mut Pen, read_pos: u64, last: u64) {
    pen.reader(0, read_pos, last, last, 2);
    pen.read(0, 0, 40_960);
}
