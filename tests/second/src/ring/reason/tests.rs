//! Each reason from each operation, alone and with others; and the papers read once more, over bytes laid out in one piece.

use crate::ring::chance::Chance;
use crate::ring::*;

const CAPACITY: u64 = 256;
const CPU_ID: [u8; 2] = [2, 1];

/// Size and sequence. More than half the capacity lies behind the start of each, so a large emission looks at all three.
const EVENTS: [(u32, u64); 3] = [(40, 7), (48, 8), (150, 12)];
const LARGE: usize = 96;

fn start(tail: u64, index: usize) -> u64 {
    tail + EVENTS[..index].iter().map(|(size, _)| u64::from(*size)).sum::<u64>()
}

fn header(size: u32, sequence: u64) -> Vec<u8> {
    let rest = [5, 6, 0, 0, 0, 0, 0, 0, 7, 8, 0, 0, 9, 0, 0, 0];
    [&size.to_le_bytes()[..], &[32, 0], &CPU_ID, &sequence.to_le_bytes(), &rest].concat()
}

fn put(ring: &mut [u8], position: u64, bytes: &[u8]) {
    for (step, byte) in (position..).zip(bytes) {
        ring[PAGES + (step % CAPACITY) as usize] = *byte;
    }
}

fn set_word(ring: &mut [u8], offset: usize, value: u64) {
    ring[offset..offset + 8].copy_from_slice(&value.to_le_bytes());
}

fn word(ring: &[u8], offset: usize) -> u64 {
    u64::from_le_bytes(ring[offset..offset + 8].try_into().unwrap())
}

/// Of generation 2, so that a reader of generation 1 may follow to it.
fn with_positions(tail: u64, write: u64) -> Vec<u8> {
    let mut ring = vec![0xEE; PAGES + CAPACITY as usize];
    create(&mut ring, u16::from_le_bytes(CPU_ID)).unwrap();
    set_word(&mut ring, 32, 2);
    set_word(&mut ring, 64, write);
    set_word(&mut ring, 72, tail);
    ring
}

fn sound(tail: u64) -> Vec<u8> {
    let mut ring = with_positions(tail, start(tail, 3));
    for (index, (size, sequence)) in EVENTS.into_iter().enumerate() {
        put(&mut ring, start(tail, index), &header(size, sequence));
    }
    ring
}

/// Makes a reason from 2 to 7 hold at a position; reason 1 is in write_pos.
fn spoil(ring: &mut [u8], at: u64, reason: u8) {
    let room = (word(ring, 64) - at) as u32;
    match reason {
        2 => put(ring, at + 4, &[33]),
        3 => put(ring, at, &31u32.to_le_bytes()),
        4 => put(ring, at, &(room + 1).to_le_bytes()),
        5 => put(ring, at + 7, &[2]),
        6 => put(ring, at + 30, &[1]),
        _ => put(ring, at + 8, &[0]),
    }
}

/// A reader that comes to the event of a given index next.
fn reader_at(tail: u64, index: usize) -> Reader {
    let last = EVENTS[..index].last().map_or(0, |(_, sequence)| *sequence);
    Reader { read_pos: start(tail, index), last, handed: index as u64, generation: 1 }
}

/// Place and reason that each operation refuses with; none if it isn't refusal 10.
#[derive(Debug, PartialEq, Eq)]
struct Refused {
    emit: Option<(u64, u8)>,
    inspect: Option<(u64, u8)>,
    read: Option<(u64, u8)>,
    swap: Option<(u64, u8)>,
    follow: Option<(u64, u8)>,
    record: Option<(u64, u8)>,
}

impl Refused {
    /// The same from all, but for an emission.
    fn all_but_emission(emit: Option<(u64, u8)>, others: Option<(u64, u8)>) -> Refused {
        Refused { emit, inspect: others, read: others, swap: others, follow: others, record: others }
    }
}

fn ten<Answer>(answer: Result<Answer, Refusal>) -> Option<(u64, u8)> {
    match answer {
        Err(Refusal::Damaged { at, why }) => Some((at, why.number())),
        _ => None,
    }
}

fn refused(ring: &[u8], reader: Reader, payload: usize) -> Refused {
    let writer = Writer { last: 100, dropped: 0, overwritten: 0 };
    let new = NewEvent { timestamp: 1, event_type: 2, origin_class: 3, payload: &vec![0; payload] };
    Refused {
        emit: ten(emit(&mut ring.to_vec(), writer, &new)),
        inspect: ten(inspect(ring)),
        read: ten(read(ring, reader, &mut [0; CAPACITY as usize])),
        swap: ten(swap(&mut ring.to_vec(), &mut [0; PAGES + 256], writer)),
        follow: ten(follow(ring, reader)),
        record: ten(record(ring, 0, &mut [0; 8])),
    }
}

/// Each way to choose some of the reasons from 2 to 7; none has 3 and 4, which can't both hold if 32 bytes are left.
fn choices() -> Vec<Vec<u8>> {
    let chosen = |bits: u8| (2..=7).filter(|reason| bits >> (reason - 2) & 1 == 1).collect();
    let choices = (0..64).map(chosen);
    choices.filter(|reasons: &Vec<u8>| !(reasons.contains(&3) && reasons.contains(&4))).collect()
}

/// In the first event, in the middle one and in the last, also with the header over the data's end at each of its bytes.
#[test]
fn the_first_reason_that_holds_is_given() {
    for index in 0..3 {
        for tail in (0..40).map(|step| 512 - start(0, index) - step) {
            for reasons in choices() {
                let (mut ring, at) = (sound(tail), start(tail, index));
                reasons.iter().for_each(|reason| spoil(&mut ring, at, *reason));
                let first = reasons.first().map(|reason| (at, *reason));
                let expected = Refused::all_but_emission(first.filter(|(_, reason)| *reason != 7), first);
                assert_eq!(refused(&ring, reader_at(tail, index), LARGE), expected, "event {index} at {at}: {reasons:?}");
            }
        }
    }
}

#[test]
fn with_fewer_than_32_bytes_left_no_field_counts() {
    for left in 0..=33 {
        for (reasons, tail) in choices().into_iter().zip((400..).step_by(7)) {
            let (mut ring, at) = (sound(tail), start(tail, 2));
            reasons.iter().for_each(|reason| spoil(&mut ring, at, *reason));
            set_word(&mut ring, 64, at + left);
            let first = match left {
                0 => None,
                1..=31 => Some((at, 1)),
                // The event has 150 bytes if its size was left as it was.
                _ => Some((at, reasons.iter().copied().find(|reason| *reason < 5).unwrap_or(4))),
            };
            let expected = Refused::all_but_emission(None, first);
            assert_eq!(refused(&ring, reader_at(tail, 2), LARGE), expected, "{left} left, {reasons:?}");
            set_word(&mut ring, 72, at);
            assert_eq!(refused(&ring, reader_at(tail, 1), LARGE), expected, "{left} left at the tail, {reasons:?}");
        }
    }
}

/// Each of a header's bytes that is judged, with any other value than its own.
#[test]
fn every_value_of_every_byte() {
    let (tail, at) = (500, start(500, 1));
    let own = header(48, 8);
    let room = 198;
    for (offset, byte) in (0..8).chain(29..32).flat_map(|offset| (0..=255).map(move |byte| (offset, byte))) {
        let mut ring = sound(tail);
        put(&mut ring, at + offset, &[byte]);
        let reason = match offset {
            _ if byte == own[offset as usize] => None,
            0 if byte < 32 => Some(3),
            0 if u64::from(byte) <= room => continue,
            0..=3 => Some(4),
            4 | 5 => Some(2),
            6 | 7 => Some(5),
            _ => Some(6),
        };
        let expected = reason.map(|reason| (at, reason));
        let refused = refused(&ring, reader_at(tail, 1), LARGE);
        assert_eq!(refused, Refused::all_but_emission(expected, expected), "byte {offset} is {byte}");
    }
}

/// The sequence before an event, its own, and the reader's last.
const SEQUENCES: [(u64, u64, u64); 7] =
    [(7, 7, 6), (7, 6, 6), (7, 8, 8), (7, 8, 9), (u64::MAX, 0, 0), (9, 10, u64::MAX), (1, 2, 1)];

/// Reading asks for more than the reader's last sequence, the others for more than the one before.
#[test]
fn a_sequence_that_does_not_rise() {
    let (tail, at) = (500, start(500, 1));
    for (before, sequence, last) in SEQUENCES {
        let mut ring = sound(tail);
        put(&mut ring, tail + 8, &before.to_le_bytes());
        put(&mut ring, at + 8, &sequence.to_le_bytes());
        put(&mut ring, start(tail, 2) + 8, &u64::MAX.to_le_bytes());
        let by = |above: u64| (sequence <= above).then_some((at, 7));
        let expected = Refused { read: by(last), ..Refused::all_but_emission(None, by(before)) };
        let reader = Reader { last, handed: 0, ..reader_at(tail, 1) };
        assert_eq!(refused(&ring, reader, LARGE), expected, "{sequence} after {before}, read after {last}");
    }
}

#[test]
fn of_two_bad_events_the_first_is_told() {
    for (first, second) in (2..=7).flat_map(|first| (2..=7).map(move |second| (first, second))) {
        let mut ring = sound(500);
        let places = [start(500, 1), start(500, 2)];
        spoil(&mut ring, places[0], first);
        spoil(&mut ring, places[1], second);
        let emission = match (first, second) {
            (7, 7) => None,
            (7, _) => Some((places[1], second)),
            _ => Some((places[0], first)),
        };
        let others = Refused::all_but_emission(emission, Some((places[0], first)));
        let expected = Refused { read: Some((places[1], second)), ..others };
        assert_eq!(refused(&ring, reader_at(500, 2), LARGE), expected, "{first}, then {second}");
    }
}

/// The papers once more: the bytes from tail to write_pos are laid out in one piece, and a place is counted from the tail.
mod laid_out {
    use super::*;

    pub fn live(ring: &[u8]) -> Vec<u8> {
        (word(ring, 72)..word(ring, 64)).map(|position| ring[PAGES + (position % CAPACITY) as usize]).collect()
    }

    fn size(live: &[u8], at: usize) -> usize {
        u32::from_le_bytes(live[at..at + 4].try_into().unwrap()) as usize
    }

    fn sequence(live: &[u8], at: usize) -> u64 {
        word(live, at + 8)
    }

    /// The sentence of the rules' paper, which was there before the reasons.
    fn well_formed(live: &[u8], at: usize) -> bool {
        let room = live.len() - at;
        room >= 32
            && live[at + 4..at + 8] == [32, 0, CPU_ID[0], CPU_ID[1]]
            && (32..=room).contains(&size(live, at))
            && live[at + 29..at + 32] == [0; 3]
    }

    pub fn reason(live: &[u8], at: usize, above: Option<u64>) -> Option<u8> {
        let rising = |at| above.is_none_or(|above| sequence(live, at) > above);
        let reason = match live.get(at..at + 32) {
            None => Some(1),
            Some(header) => {
                let conditions = [
                    (2, header[4..6] == [32, 0]),
                    (3, size(header, 0) > 31),
                    (4, live.len() - at >= size(header, 0)),
                    (5, header[6..8] == CPU_ID),
                    (6, header[29..] == [0; 3]),
                    (7, rising(at)),
                ];
                conditions.iter().find(|(_, holds)| !holds).map(|(reason, _)| *reason)
            }
        };
        assert_eq!(reason.is_none(), well_formed(live, at) && rising(at), "10 is given where it was");
        reason
    }

    pub fn inspected(live: &[u8]) -> Option<(usize, u8)> {
        let (mut at, mut before) = (0, 0);
        while at < live.len() {
            if let Some(reason) = reason(live, at, Some(before)) {
                return Some((at, reason));
            }
            before = sequence(live, at);
            at += size(live, at);
        }
        None
    }

    pub fn walked(live: &[u8], new: usize) -> Option<(usize, u8)> {
        let mut at = 0;
        while live.len() - at + new > CAPACITY as usize {
            if let Some(reason) = reason(live, at, None) {
                return Some((at, reason));
            }
            at += size(live, at);
        }
        None
    }
}

/// Full or not, with some bytes of its headers altered and write_pos anywhere near.
fn any_ring(chance: &mut Chance) -> Vec<u8> {
    let tail = chance.below(700) as u64;
    let (mut bytes, mut starts, mut sequence) = (Vec::new(), Vec::new(), 0);
    while bytes.len() < 224 && (bytes.is_empty() || chance.below(6) > 0) {
        let size = 32 + chance.below(225 - bytes.len()) * chance.below(3) / 2;
        sequence += 1 + chance.below(3) as u64;
        starts.push(bytes.len());
        bytes.extend(header(size as u32, sequence));
        bytes.resize(starts.last().unwrap() + size, 0);
    }
    for _ in 0..chance.below(4) {
        let at = starts[chance.below(starts.len())] + [0, 1, 4, 5, 6, 7, 8, 29, 30, 31][chance.below(10)];
        bytes[at] = [0, 1, 2, 31, 32, 33, 255][chance.below(7)];
    }
    let more = if chance.below(4) == 0 { chance.below(60) } else { 30 };
    let write = (tail + bytes.len() as u64 + more as u64).saturating_sub(30).clamp(tail, tail + CAPACITY);
    let mut ring = with_positions(tail, write);
    put(&mut ring, tail, &bytes);
    ring
}

#[test]
fn ten_is_given_where_it_was_and_with_the_first_reason() {
    let mut chance = Chance(5);
    let (mut by_emission, mut by_inspection) = ([0; 8], [0; 8]);
    for _ in 0..40_000 {
        let ring = any_ring(&mut chance);
        let live = laid_out::live(&ring);
        let (tail, last, payload) = (word(&ring, 72), chance.below(4) as u64, chance.below(97));
        let placed = |found: Option<(usize, u8)>| found.map(|(at, reason)| (tail + at as u64, reason));
        let read = if live.is_empty() { None } else { laid_out::reason(&live, 0, Some(last)).map(|reason| (0, reason)) };
        let others = placed(laid_out::inspected(&live));
        let emission = placed(laid_out::walked(&live, 32 + payload));
        let expected = Refused { read: placed(read), ..Refused::all_but_emission(emission, others) };
        let reader = Reader { read_pos: tail, last, handed: 0, generation: 1 };
        assert_eq!(refused(&ring, reader, payload), expected);
        by_emission[emission.map_or(0, |(_, reason)| usize::from(reason))] += 1;
        by_inspection[others.map_or(0, |(_, reason)| usize::from(reason))] += 1;
    }
    assert!(by_inspection.iter().all(|count| *count >= 100), "{by_inspection:?}");
    // More than half the capacity lies behind every event that an emission looks at, and it looks at no sequence.
    assert!((0..8).all(|reason| (by_emission[reason] >= 100) == ![1, 7].contains(&reason)), "{by_emission:?}");
    assert_eq!((by_emission[1], by_emission[7]), (0, 0));
}
