//! How often each call meets an event that goes over the data's end, by how many of its bytes stand before it, and one that only
//! comes up to it. The answers don't tell, so the scripts are played.

use crate::count::{gathered, number, word};
use crate::count_rings::{capacity, data, ring_of, size, tail, write};
use crate::script::Machine;
use crate::stored::lines;
use std::collections::BTreeMap;
use std::ops::Range;
use std::path::Path;

const HEADER: u64 = 32;
const OPENING: u64 = 8;

/// What stands before the data's end, where that isn't a part of the header.
const OTHERS: [&str; 7] = [
    "the header",
    "the header and one byte",
    "the header and more",
    "all but one byte",
    "all bytes",
    "no byte",
    "a part of half the capacity",
];
const CALLS: [Call; 6] = [Call::Stored, Call::Passed, Call::Read, Call::Inspected, Call::Swapped, Call::Recorded];

/// What is done with the event. A header that is refused has no size to go by, so it counts apart.
#[derive(Clone, Copy, Debug, PartialEq, Eq, PartialOrd, Ord)]
enum Call {
    Stored,
    Passed,
    Read,
    Inspected,
    Swapped,
    Recorded,
    Refused,
}

type Counts = BTreeMap<(Call, String), usize>;

struct Event {
    at: u64,
    size: u64,
    capacity: u64,
}

impl Event {
    fn before_end(&self) -> u64 {
        self.capacity - self.at % self.capacity
    }

    fn names(&self) -> Vec<String> {
        let before_end = self.before_end();
        let mut names = if before_end < self.size { self.names_over_the_end() } else { Vec::new() };
        if before_end == self.size {
            names.push("all bytes".to_string());
        }
        if before_end == self.capacity {
            names.push("no byte".to_string());
        }
        names
    }

    /// None if both stretches have one length: those could be exchanged and nothing would show it.
    fn names_over_the_end(&self) -> Vec<String> {
        let before_end = self.before_end();
        let of_half = self.size == self.capacity / 2;
        let rows = [
            (before_end < HEADER, part_of_header(before_end)),
            (before_end == HEADER, "the header".to_string()),
            (before_end == HEADER + 1, "the header and one byte".to_string()),
            (before_end > HEADER + 1 && before_end + 1 < self.size, "the header and more".to_string()),
            (before_end + 1 == self.size, "all but one byte".to_string()),
            (of_half, "a part of half the capacity".to_string()),
        ];
        let seen = 2 * before_end != self.size;
        rows.into_iter().filter(|(holds, _)| seen && *holds).map(|(_, name)| name).collect()
    }

    /// Whether a piece of the recording holds the bytes on both sides of the data's end, where the event lies.
    fn crossed_by(&self, piece: &Range<u64>, tail: u64) -> bool {
        let begins_there = (self.before_end() == self.capacity).then_some(self.at);
        let comes_there = (self.before_end() <= self.size).then_some(self.at + self.before_end());
        let mut ends = begins_there.into_iter().chain(comes_there).map(|end| OPENING + end - tail);
        ends.any(|place| piece.start < place && place < piece.end)
    }
}

pub fn print(folder: &Path) -> Result<(), String> {
    let counts = gathered(folder, add)?;
    println!("\nbefore the data's end: {}", CALLS.map(|call| format!("{call:?}").to_lowercase()).join(", "));
    for name in names() {
        println!("{name}: {}", CALLS.map(|call| times(&counts, call, &name).to_string()).join(", "));
    }
    println!("\nof a header that is refused: count");
    for name in parts_of_header() {
        println!("{name}: {}", times(&counts, Call::Refused, &name));
    }
    Ok(())
}

fn parts_of_header() -> Vec<String> {
    (1..HEADER).map(part_of_header).collect()
}

fn part_of_header(count: u64) -> String {
    format!("{count} of the header")
}

/// Everything that each call is counted for, in the order shown.
fn names() -> Vec<String> {
    let others = OTHERS.iter().map(|name| name.to_string());
    parts_of_header().into_iter().chain(others).collect()
}

fn times(counts: &Counts, call: Call, name: &str) -> usize {
    counts.get(&(call, name.to_string())).copied().unwrap_or_default()
}

/// A rest that no newline ends is no command, so it isn't played.
fn add(counts: &mut Counts, script: &[u8]) {
    let mut machine = Machine::new();
    for line in lines(script).into_iter().filter_map(|line| line.strip_suffix(b"\n")) {
        let before = if line.starts_with(b"emit") { ring_of(&machine, line).to_vec() } else { Vec::new() };
        let answer = machine.play(line);
        for (call, name) in met(&machine, line, answer.as_bytes(), &before) {
            *counts.entry((call, name)).or_insert(0) += 1;
        }
    }
}

fn met(machine: &Machine, line: &[u8], answer: &[u8], before: &[u8]) -> Vec<(Call, String)> {
    let ring = ring_of(machine, line);
    let events = match (word(line, 0).as_str(), word(answer, 0).as_str()) {
        ("emit" | "emitlen", "done" | "wake") => emitted(before, ring),
        ("read", "event") => vec![(Call::Read, handed_out(ring, answer))],
        ("inspect", "kept") => all(Call::Inspected, events(ring, tail(ring)..write(ring))),
        ("swap", "done" | "wake") => all(Call::Swapped, carried_over(machine, line, ring)),
        ("record", "placed") => all(Call::Recorded, in_piece(ring, number(line, 2), number(answer, 1))),
        (_, "refused") => return refused(ring, answer),
        _ => Vec::new(),
    };
    events.into_iter().flat_map(|(call, event)| event.names().into_iter().map(move |name| (call, name))).collect()
}

fn all(call: Call, events: Vec<Event>) -> Vec<(Call, Event)> {
    events.into_iter().map(|event| (call, event)).collect()
}

fn emitted(before: &[u8], after: &[u8]) -> Vec<(Call, Event)> {
    let mut events = all(Call::Passed, events(before, tail(before)..tail(after)));
    let size = write(after) - write(before);
    events.push((Call::Stored, Event { at: write(before), size, capacity: capacity(after) }));
    events
}

fn handed_out(ring: &[u8], answer: &[u8]) -> Event {
    let size = number(answer, 1);
    Event { at: number(answer, 5) - size, size, capacity: capacity(ring) }
}

fn carried_over(machine: &Machine, line: &[u8], old: &[u8]) -> Vec<Event> {
    let new = &machine.buffers[number(line, 2) as usize];
    events(old, write(old) - write(new)..write(old))
}

fn in_piece(ring: &[u8], placed: u64, count: u64) -> Vec<Event> {
    let piece = placed..placed + count;
    let mut events = events(ring, tail(ring)..write(ring));
    events.retain(|event| event.crossed_by(&piece, tail(ring)));
    events
}

/// By number 10, for what the header says; with fewer than 32 bytes up to write_pos no header is looked at.
fn refused(ring: &[u8], answer: &[u8]) -> Vec<(Call, String)> {
    if word(answer, 1) != "10" {
        return Vec::new();
    }
    let at = number(answer, 3);
    let before_end = capacity(ring) - at % capacity(ring);
    let looked_at = write(ring) - at >= HEADER && before_end < HEADER;
    looked_at.then(|| (Call::Refused, part_of_header(before_end))).into_iter().collect()
}

/// One behind the other, between places that the call has found to be right.
fn events(ring: &[u8], places: Range<u64>) -> Vec<Event> {
    let mut events = Vec::new();
    let mut at = places.start;
    while at < places.end {
        let size = size(&data(ring, at, 4));
        events.push(Event { at, size, capacity: capacity(ring) });
        at += size;
    }
    events
}

#[cfg(test)]
mod tests {
    use super::*;

    /// RULES 9.1, lines 1 to 4: events 1 and 5 begin with the data, event 4 ends with it, event 7 has 96 bytes before its end.
    const LINES: &str = "size 0 8448\ncreate 0 3\nemitlen 0 0 1 1 1 32\nemitlen 0 0 1 1 1 32\nemitlen 0 0 1 1 1 32\n\
        emitlen 0 0 1 1 1 32\nemitlen 0 0 1 1 1 0\nemitlen 0 0 1 1 1 96\nemitlen 0 0 1 1 1 96\n";

    /// The calls that meet the events counted under a name, with how many there are.
    fn counted(more: &str, name: &str) -> Vec<(Call, usize)> {
        let mut counts = Counts::new();
        add(&mut counts, format!("{LINES}{more}").as_bytes());
        CALLS.into_iter().map(|call| (call, times(&counts, call, name))).filter(|(_, count)| *count > 0).collect()
    }

    #[test]
    fn the_sums_are_counted() {
        assert_eq!(counted("", "all bytes"), [(Call::Stored, 1), (Call::Passed, 1)]);
        assert_eq!(counted("", "no byte"), [(Call::Stored, 2), (Call::Passed, 2)]);
        assert_eq!(counted("", "the header and more"), [(Call::Stored, 1)]);
        assert_eq!(counted("inspect 0\n", "a part of half the capacity"), [(Call::Stored, 1), (Call::Inspected, 1)]);
    }

    /// Event 7 stands in the recording from byte 136 on, and the data's end is 96 bytes behind that.
    #[test]
    fn looks_are_counted() {
        let looks = "attach 0 0\nread 0 0 128\nread 0 0 128\nsize 1 8448\nswap 0 1 0\n\
            record 0 0 232\nrecord 0 232 60\nrecord 0 231 1\nrecord 0 231 2\n";
        let expected = [(Call::Stored, 1), (Call::Read, 1), (Call::Swapped, 1), (Call::Recorded, 1)];
        assert_eq!(counted(looks, "the header and more"), expected);
    }

    #[test]
    fn a_split_has_its_names() {
        let names = |before_end: u64, size| Event { at: 512 - before_end, size, capacity: 256 }.names();
        assert_eq!(names(1, 32), ["1 of the header"]);
        assert_eq!(names(31, 32), ["31 of the header", "all but one byte"]);
        assert_eq!(names(32, 33), ["the header", "all but one byte"]);
        assert_eq!(names(33, 128), ["the header and one byte", "a part of half the capacity"]);
        assert_eq!(names(34, 36), ["the header and more"]);
        assert_eq!((names(32, 32), names(256, 32)), (vec!["all bytes".to_string()], vec!["no byte".to_string()]));
        assert!(names(33, 32).is_empty() && names(64, 128).is_empty());
    }

    #[test]
    fn each_split_is_stored_often() {
        let counts = gathered(Path::new("stored"), add).unwrap();
        let met = names().into_iter().flat_map(|name| CALLS.map(|call| (call, name.clone())));
        let refused = parts_of_header().into_iter().map(|name| (Call::Refused, name));
        for (call, name) in met.chain(refused) {
            assert!(times(&counts, call, &name) >= 50, "{call:?}, {name}: {}", times(&counts, call, &name));
        }
    }
}
