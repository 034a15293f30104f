//! Recordings by makers that have read the papers otherwise. On some rings it makes no difference.

use super::beside::Beside;
use super::images::{capacity, stretch, tail_pos, write_pos};
use super::parts::Parts;
use super::rings::{ring, smallest};
use crate::generate::pen::Pen;

pub fn write(pen: &mut Pen) {
    let from_the_datas_start = ring(256, 0x3333, 512, &[(39, 1), (46, 2)]);
    let full = ring(256, 0x2121, 777, &[(100, 4), (77, 5), (79, 6)]);
    for (turn, sketch) in smallest().iter().chain([&from_the_datas_start, &full]).enumerate() {
        let beside = Beside::of_turn(turn + 9);
        let own = beside.drawn(pen, sketch);
        let (parts, drawn) = (Parts::of(&own), pen.machine.buffers[beside.ring].clone());
        let makers = [other_openings(&parts), other_events(&parts), other_closings(&parts), other_places(&parts, &drawn)];
        for recording in makers.concat() {
            beside.ask(pen, &recording);
        }
    }
}

/// Numbers with the high byte first, a version of four bytes, none of the opening.
fn other_openings(own: &Parts) -> Vec<Vec<u8>> {
    let rest = [own.events.concat(), own.closing()].concat();
    let (low, high) = (own.opening[5], own.opening[6]);
    [vec![b'S', b'P', b'L', 0, 1, high, low, 0], vec![b'S', b'P', b'L', 1, 0, 0, 0, low, high, 0], Vec::new()]
        .map(|opening| [opening, rest.clone()].concat())
        .to_vec()
}

/// The newest first; each filled up to a multiple of 8; the headers alone; a closing after each.
fn other_events(own: &Parts) -> Vec<Vec<u8>> {
    let newest_first = own.events.iter().rev().cloned().collect();
    let filled_up = own.events.iter().map(|event| [&event[..], &vec![0; event.len().wrapping_neg() % 8]].concat()).collect();
    let headers = own.events.iter().map(|event| event[..32].to_vec()).collect();
    let closed = own.events.iter().map(|event| [event.clone(), own.closing()].concat()).collect();
    [newest_first, filled_up, headers, closed].map(|events| Parts { events, ..own.clone() }.joined()).to_vec()
}

/// Counts before the zeros, counts alone, zeros alone, the last sequence in the place of missed, two closings, none.
fn other_closings(own: &Parts) -> Vec<Vec<u8>> {
    let (handed, missed, zeros) = (own.handed.to_le_bytes(), own.missed.to_le_bytes(), [0; 8]);
    let last = own.handed.wrapping_add(own.missed).to_le_bytes();
    let front = [own.opening.clone(), own.events.concat()].concat();
    let closings =
        [[handed, missed, zeros].concat(), [handed, missed].concat(), vec![0; 24], [zeros, handed, last].concat(), Vec::new()];
    let mut recordings: Vec<Vec<u8>> = closings.iter().map(|closing| [&front[..], closing].concat()).collect();
    recordings.push([front, own.closing(), own.closing()].concat());
    recordings
}

/// From the data's start on, one byte too late, the second stretch first, the first again in its place, the whole data.
fn other_places(own: &Parts, ring: &[u8]) -> Vec<Vec<u8>> {
    let (tail, write) = (tail_pos(ring), write_pos(ring));
    let data_end = (tail + capacity(ring) - tail % capacity(ring)).min(write);
    let (first, second) = (stretch(ring, tail, data_end), stretch(ring, data_end, write));
    let places = [
        ring[8192..8192 + (write - tail) as usize].to_vec(),
        stretch(ring, tail + 1, write + 1),
        [&second[..], &first].concat(),
        [&first[..], &first[..second.len().min(first.len())]].concat(),
        ring[8192..].to_vec(),
    ];
    places.map(|bytes| [own.opening.clone(), bytes, own.closing()].concat()).to_vec()
}
