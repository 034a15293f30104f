//! Copies of every answer but for damaged events: what is lent, ends of a ring, absurd records. A slip is written with an event
//! alone, which a confirm shows.

use super::rings::{emptied, empty, positions, set_reader, ALL, HEADER, MAX};
use crate::generate::pen::Pen;
use crate::ring::{Reader, HIGHEST_POSITION};

const ROUNDS: usize = 52;

pub fn write(pen: &mut Pen) {
    for _ in 0..ROUNDS {
        two_events(pen);
        lent(pen);
        ends(pen);
        absurd_readers(pen);
        below_the_tail(pen);
        after_a_swap(pen);
    }
}

/// In buffer 0, with readers 0 and 1 at the first and reader 2 where an event was once.
fn two_events(pen: &mut Pen) {
    let capacity = pen.random.pick(&[256, 256, 512]);
    let position = pen.random.pick(&[300, 1000, 1 << 33, HIGHEST_POSITION - 300]) + pen.random.below(90);
    let last = pen.random.pick(&[1, 9, 1 << 40, MAX - 2]);
    empty(pen, 0, capacity, position, last);
    for _ in 0..2 {
        let payload = pen.random.below(40);
        pen.emit_noise(0, 0, payload);
    }
    let reader = Reader { read_pos: position, last, handed: last.min(7), generation: 1 };
    let back = 1 + pen.random.below(200);
    for (index, read_pos) in [position, position, position - back].into_iter().enumerate() {
        set_reader(pen, index, Reader { read_pos, ..reader });
    }
}

/// The exact size and one byte less, in both orders. After a refusal the slip is still that of the event.
fn lent(pen: &mut Pen) {
    let size = super::rings::size_at(pen, 0, pen.tail_pos(0));
    let less = pen.random.pick(&[0, 1, 31, size - 1]);
    for (reader, lent) in [(0, size - 1), (0, size), (2, less), (0, size - 1)] {
        let answer = pen.copy(0, reader, 0, lent);
        if answer.starts_with("refused") {
            pen.say("outsum");
        }
    }
    pen.copy(0, 2, 2, size);
    for reader in [0, 2] {
        pen.confirm(0, reader, reader);
    }
    pen.say("outsum");
}

/// Reader 0 is copying the second event into slip 1; reader 1 comes to the end with the same slip.
fn ends(pen: &mut Pen) {
    pen.copy(0, 0, 1, ALL);
    let end = pen.write_pos(0);
    let reader = Reader { read_pos: end, ..pen.machine.readers[0] };
    for generation in [1, pen.random.pick(&[0, 2, MAX])] {
        set_reader(pen, 1, Reader { generation, ..reader });
        let lent = pen.random.pick(&[0, 32, ALL]);
        pen.copy(0, 1, 1, lent);
    }
    pen.confirm(0, 0, 1);
    pen.copy(0, 0, 1, 0);
}

/// Refused 13 by each of read's conditions and by both, whatever is lent.
fn absurd_readers(pen: &mut Pen) {
    let (tail, write) = (pen.tail_pos(0), pen.write_pos(0));
    let handed = pen.random.pick(&[8, MAX]);
    let above = pen.random.pick(&[write + 1, write + HEADER, MAX]);
    let inside = pen.random.pick(&[0, tail, write]);
    for (read_pos, handed) in [(inside, handed), (above, 7), (write + 1, 8)] {
        set_reader(pen, 3, Reader { read_pos, last: 7, handed, generation: 1 });
        let lent = pen.random.pick(&[0, ALL]);
        pen.copy(0, 3, 1, lent);
    }
    if pen.random.one_in(4) {
        pen.say("outsum");
        pen.sum(0);
    }
}

/// An empty ring whose tail is above the reader, as only hands make it.
fn below_the_tail(pen: &mut Pen) {
    let at = pen.random.pick(&[1, 40, 700, 1 << 45, HIGHEST_POSITION]);
    positions(pen, 0, at, at);
    let below = pen.random.below(at);
    for (read_pos, generation) in [(below, 1), (at - 1, 2), (0, 1), (0, 5), (at, 1), (at, 2), (at + 1, 1)] {
        set_reader(pen, 3, Reader { read_pos, last: 7, handed: 0, generation });
        pen.copy(0, 3, 1, 0);
    }
}

/// The swap comes between a copy and its confirm; the old ring is emptied, and the reader follows.
fn after_a_swap(pen: &mut Pen) {
    empty(pen, 0, 256, 0, 0);
    pen.say("attach 0 0");
    for _ in 0..3 {
        let payload = pen.random.below(30);
        pen.emit_noise(0, 0, payload);
    }
    pen.copy(0, 0, 0, ALL);
    pen.say("size 1 8704");
    pen.say("swap 0 1 0");
    pen.confirm(0, 0, 0);
    if emptied(pen, 0, 0).starts_with("moved") {
        pen.say("follow 1 0");
    }
    pen.emit_noise(1, 0, 5);
    emptied(pen, 1, 0);
}
