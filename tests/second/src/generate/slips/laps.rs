//! Full rings that are passed to a chosen place between the copies and the confirms: not at all, up to the copied event, by
//! exactly it, by more, by the whole ring and beyond.

use super::rings::{empty, pass_one, pass_up_to, set_reader, ALL, HEADER, MAX};
use crate::generate::pen::Pen;
use crate::ring::{Reader, HIGHEST_POSITION};

const CAPACITIES: [u64; 8] = [256, 512, 1024, 2048, 4096, 8192, 16_384, 32_768];

/// Above it, few of the large events are copied: they would take too much room in the answers.
const COPIED_WHOLE: u64 = 1024;

const CASES: [Until; 8] =
    [Until::Nothing, Until::One, Until::Event, Until::Event, Until::ItsEnd, Until::ItsEnd, Until::More, Until::Whole];

#[derive(Clone, Copy)]
enum Until {
    Nothing,
    One,
    Event,
    ItsEnd,
    More,
    Whole,
}

/// An event of the full ring: position, size and sequence.
type Event = (u64, u64, u64);

pub fn write(pen: &mut Pen) {
    for round in 0..2 {
        for capacity in CAPACITIES {
            for until in CASES {
                one_ring(pen, capacity, until, round);
            }
        }
    }
}

fn one_ring(pen: &mut Pen, capacity: u64, until: Until, round: u64) {
    let (events, gone) = full_ring(pen, capacity, round);
    // A small event that isn't the first.
    let chosen = pen.random.pick(&[2, 4, 6]);
    readers(pen, &events, gone, chosen);
    for reader in 0..4 {
        let lent = lent(pen, capacity);
        let answer = pen.copy(0, reader, reader, lent);
        assert!(answer.starts_with("event"));
    }
    emissions(pen, &events, chosen, until);
    let mut order = [0, 1, 2, 3];
    pen.random.shuffle(&mut order);
    for reader in order {
        confirmed(pen, capacity, reader);
    }
    pen.sum(0);
}

/// Small and large events by turns, behind one that is gone; its end and sequence stand second.
fn full_ring(pen: &mut Pen, capacity: u64, round: u64) -> (Vec<Event>, (u64, u64)) {
    let laps = [pen.random.below(7), HIGHEST_POSITION / capacity - 9][round as usize % 2];
    let position = laps * capacity + pen.random.below(capacity);
    let last = pen.random.pick(&[0, 0, 1000, 1 << 63, MAX - 60]);
    empty(pen, 0, capacity, position, last);
    let mut sizes: Vec<u64> = (0..4).map(|_| HEADER + pen.random.below(9)).collect();
    let large = (capacity - sizes.iter().sum::<u64>()) / 3;
    for place in [1, 3, 5] {
        sizes.insert(place, large);
    }
    sizes[5] -= pen.random.below(large - HEADER + 1);
    // It is passed by the last of the others.
    pen.emit_zeros(0, 0, capacity / 2 - HEADER);
    let gone = (pen.write_pos(0), pen.machine.writers[0].last);
    let events = sizes.into_iter().map(|size| emitted(pen, size)).collect::<Vec<Event>>();
    pass_up_to(pen, 0, events[0].0);
    (events, gone)
}

fn emitted(pen: &mut Pen, size: u64) -> Event {
    let position = pen.write_pos(0);
    pen.emit(0, 0, size - HEADER);
    (position, size, pen.machine.writers[0].last)
}

/// One comes to the chosen event next, one to the first, one to any small one; the last was lapped.
fn readers(pen: &mut Pen, events: &[Event], gone: (u64, u64), chosen: usize) {
    let any = pen.random.pick(&[0, 2, 4, 6]);
    for (index, next) in [chosen, 0, any].into_iter().enumerate() {
        let (read_pos, _, sequence) = events[next];
        let handed = pen.random.pick(&[0, next as u64]).min(sequence - 1);
        set_reader(pen, index, Reader { read_pos, last: sequence - 1, handed, generation: 1 });
    }
    let (end, sequence) = gone;
    let back = 1 + pen.random.below(end);
    let read_pos = end - pen.random.pick(&[1, back]);
    set_reader(pen, 3, Reader { read_pos, last: sequence - 1, handed: 0, generation: 1 });
}

fn emissions(pen: &mut Pen, events: &[Event], chosen: usize, until: Until) {
    let write = pen.write_pos(0);
    let start = |index: usize| events.get(index).map_or(write, |event| event.0);
    match until {
        Until::Nothing => {}
        Until::One => drop(pass_one(pen, 0)),
        Until::Event => pass_up_to(pen, 0, start(chosen)),
        Until::ItsEnd => pass_up_to(pen, 0, start(chosen + 1)),
        Until::More => pass_up_to(pen, 0, start(chosen + 2)),
        Until::Whole => {
            pass_up_to(pen, 0, write);
            for _ in 0..pen.random.below(4) {
                pass_one(pen, 0);
            }
        }
    }
}

/// What is lent for a copy; the answers of large events are kept few.
fn lent(pen: &mut Pen, capacity: u64) -> u64 {
    if capacity <= COPIED_WHOLE || pen.random.one_in(12) {
        ALL
    } else {
        pen.random.pick(&[40, 100, 300])
    }
}

/// With one more copy and confirm behind AGAIN, at once or after an emission.
fn confirmed(pen: &mut Pen, capacity: u64, reader: usize) {
    let answer = pen.confirm(0, reader, reader);
    if !answer.starts_with("again") {
        return;
    }
    pen.say("outsum");
    let lent = lent(pen, capacity);
    pen.copy(0, reader, reader, lent);
    if pen.random.one_in(4) {
        pass_one(pen, 0);
    }
    pen.confirm(0, reader, reader);
}
