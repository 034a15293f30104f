//! Rings that live on. Each lap has one event at the data's end, which is stored, looked at by every call and passed by a later walk.

use crate::generate::pen::Pen;
use crate::ring::HIGHEST_POSITION;

const ROUNDS: usize = 50;
const CAPACITIES: [u64; 5] = [256, 1024, 256, 32_768, 256];

/// Half of a larger capacity would take too much room in the answers.
const LARGEST_HALVED: u64 = 1024;

const HEADER: u64 = 32;

/// An event at the data's end: how many bytes before it the event begins, and its size.
struct Split {
    before_end: u64,
    size: u64,
}

/// The event once it is stored.
struct Event<'a> {
    at: u64,
    sequence: u64,
    split: &'a Split,
}

pub fn write(pen: &mut Pen) {
    for round in 0..ROUNDS {
        one_ring(pen, CAPACITIES[round % CAPACITIES.len()]);
    }
}

fn one_ring(pen: &mut Pen, capacity: u64) {
    let splits = splits(pen, capacity);
    begin(pen, capacity, splits[0].before_end);
    for (index, split) in splits.iter().enumerate() {
        let next = splits.get(index + 1).unwrap_or(split);
        one_lap(pen, capacity, split, next.before_end);
    }
    // The last lap's event is passed too.
    pen.emit_zeros(0, 0, capacity / 2 - HEADER);
    pen.sum(0);
}

/// Empty, with the first event's place as its positions. No byte of cpu_id is zero, nor in some rings one of the sequence.
fn begin(pen: &mut Pen, capacity: u64, before_end: u64) {
    let cpu_id = pen.random.pick(&[0x0102, 0xA55A, 0x7F80]);
    let data_end = pen.random.pick(&[capacity, capacity * 77, 1 << 32, HIGHEST_POSITION - 60 * capacity]);
    let last = pen.random.pick(&[0, 0, 240, 65_500, 0x0102_0304_0506_0708]);
    let position = (data_end - before_end).to_le_bytes();
    pen.fresh(0, capacity, cpu_id);
    pen.put(0, 64, &[position, position].concat());
    pen.writer(0, last, 0, last);
    pen.say("attach 0 0");
    let larger = pen.random.below(2);
    pen.say(format!("size 1 {}", 8192 + (capacity << larger).min(32_768)));
}

/// In any order, so that what an event is stored over differs: a byte that should be stored and isn't then shows.
fn splits(pen: &mut Pen, capacity: u64) -> Vec<Split> {
    let mut splits: Vec<Split> = (0..=HEADER + 1).map(|before_end| header_split(pen, before_end)).collect();
    let [but_one, ending] = [34, 32].map(|least| least + pen.random.below(28));
    splits.push(Split { before_end: but_one - 1, size: but_one });
    splits.push(Split { before_end: ending, size: ending });
    splits.push(if capacity > LARGEST_HALVED { payload_split(pen) } else { half_split(pen, capacity / 2) });
    pen.random.shuffle(&mut splits);
    splits
}

fn header_split(pen: &mut Pen, before_end: u64) -> Split {
    let size = HEADER.max(before_end + 1) + pen.random.below(13);
    // Two stretches of one length could be exchanged and nothing would show it.
    Split { before_end, size: size + u64::from(size == 2 * before_end) }
}

fn payload_split(pen: &mut Pen) -> Split {
    let behind_end = 2 + pen.random.below(20);
    let before_end = HEADER + 2 + pen.random.below(20);
    Split { before_end, size: before_end + behind_end }
}

/// The largest event that isn't dropped.
fn half_split(pen: &mut Pen, half: u64) -> Split {
    let before_end = pen.random.pick(&[1, 17, 31, 32, 33, 34, 45, half - 33, half - 32, half - 31, half - 2, half - 1]);
    Split { before_end, size: half }
}

/// Looked at as the last event, as one between others, or as the first of a ring that is full or nearly so.
fn one_lap(pen: &mut Pen, capacity: u64, split: &Split, next: u64) {
    let fillers = fillers(pen, capacity, capacity + split.before_end - split.size - next);
    let at = pen.write_pos(0);
    pen.emit_noise(0, 0, split.size - HEADER);
    pen.sum(0);
    let event = Event { at, sequence: pen.machine.writers[0].last, split };
    // The second filler passes the event if the lap is longer than the capacity.
    let turns = if next < split.before_end { &[0, 1][..] } else { &[0, 1, 2, 2, 2, 2] };
    let turn = pen.random.pick(turns);
    for (step, filler) in fillers.into_iter().enumerate() {
        if turn == step {
            looks(pen, &event);
        }
        pen.emit_zeros(0, 0, filler - HEADER);
    }
    if turn == fillers.len() {
        looks(pen, &event);
    }
}

/// Two sizes of at most half the capacity, which lead to where the next lap's event begins.
fn fillers(pen: &mut Pen, capacity: u64, total: u64) -> [u64; 2] {
    let least = HEADER.max(total.saturating_sub(capacity / 2));
    let most = (capacity / 2).min(total - HEADER);
    let first = least + pen.random.below(most - least + 1);
    [first, total - first]
}

/// The swap goes to a ring that holds every event, so the writer's record stays as it is and the old ring can live on.
fn looks(pen: &mut Pen, event: &Event) {
    pen.say("inspect 0");
    read(pen, event);
    record(pen, event);
    if pen.random.one_in(2) {
        pen.say("outsum");
    }
    pen.say("swap 0 1 0");
    pen.sum(1);
}

/// A reader that was lapped comes to the first event by itself.
fn read(pen: &mut Pen, event: &Event) {
    if pen.tail_pos(0) != event.at {
        pen.reader(0, event.at, event.sequence - 1, 0, 1);
    }
    let more = pen.random.pick(&[0, 0, 1, 100]);
    pen.read(0, 0, event.split.size + more);
}

/// A piece over the data's end, no longer than the shortest event, so that what reading put behind an event isn't covered.
fn record(pen: &mut Pen, event: &Event) {
    let data_end = 8 + event.at + event.split.before_end - pen.tail_pos(0);
    let before_end = 1 + pen.random.below(data_end.min(HEADER - 1));
    let behind_end = 1 + pen.random.below(HEADER - before_end);
    pen.record(0, data_end - before_end, before_end + behind_end);
}
