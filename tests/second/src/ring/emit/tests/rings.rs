//! Rings that pass 1 to 6, whatever stands in their data regions and wherever tail and write_pos are.

use crate::ring::bytes::set;
use crate::ring::chance::Chance;
use crate::ring::event::{store, HEADER};
use crate::ring::page::{open, Page, FUTEX_COUNTER, GENERATION, TAIL_POS, WRITE_POS};
use crate::ring::*;

/// The thirteen allowed ones.
pub fn capacities() -> impl Iterator<Item = u64> {
    (8..=20).map(|bits| 1 << bits)
}

pub fn below(chance: &mut Chance, bound: u64) -> u64 {
    chance.below(bound as usize) as u64
}

/// Any number below 2^62.
fn far(chance: &mut Chance) -> u64 {
    below(chance, 1 << 31) << 31 | below(chance, 1 << 31)
}

/// Three bytes from one number, since the largest rings have many.
fn noise(chance: &mut Chance, bytes: &mut [u8]) {
    for piece in bytes.chunks_mut(3) {
        piece.copy_from_slice(&chance.below(1 << 24).to_le_bytes()[..piece.len()]);
    }
}

/// Noise in all bytes that 1 to 6 don't look at, the data region among them.
fn ring_with_positions(chance: &mut Chance, capacity: u64, tail: u64, write: u64) -> Vec<u8> {
    let mut ring = vec![0; PAGES + capacity as usize];
    create(&mut ring, chance.below(1 << 16) as u16).unwrap();
    set(&mut ring, GENERATION, 8, 1 + far(chance));
    set(&mut ring, WRITE_POS, 8, write);
    set(&mut ring, TAIL_POS, 8, tail);
    noise(chance, &mut ring[FUTEX_COUNTER..FUTEX_COUNTER + 4]);
    noise(chance, &mut ring[192..]);
    ring
}

fn any_positions(chance: &mut Chance, capacity: u64) -> (u64, u64) {
    let (half, any) = (capacity / 2, below(chance, capacity + 1));
    let live = [0, 31, 32, half, half + 1, any, any, capacity - 1, capacity, capacity][chance.below(10)];
    let highest = HIGHEST_POSITION - live;
    let tails = [0, below(chance, 3 * capacity), far(chance) % highest, highest - below(chance, capacity), highest];
    let tail = tails[chance.below(5)];
    (tail, tail + live)
}

/// A sound header, but for what is never judged: that stays as it was.
fn put_header(ring: &mut [u8], page: &Page, at: u64, size: u64, sequence: u64) {
    let mut front = [0; 16];
    set(&mut front, 0, 4, size);
    set(&mut front, 4, 2, HEADER);
    set(&mut front, 6, 2, page.cpu_id);
    set(&mut front, 8, 8, sequence);
    store(ring, page.capacity, at, &front);
    store(ring, page.capacity, at + 29, &[0; 3]);
}

/// Sound events from the tail to write_pos, by where they start; none if not even a header has room. The sizes are drawn, mostly
/// fewer than `spread` bytes above the least.
fn put_events(chance: &mut Chance, ring: &mut [u8], page: &Page, spread: u64) -> Vec<u64> {
    let (mut at, mut sequence, mut starts) = (page.tail_pos, 0, Vec::new());
    while page.write_pos - at >= HEADER {
        let (left, drawn) = (page.write_pos - at, HEADER + below(chance, spread));
        // A rest that is too short for another event belongs to this one.
        let size = if left < drawn + HEADER { left } else { drawn };
        sequence += 1 + below(chance, 3);
        put_header(ring, page, at, size, sequence);
        starts.push(at);
        at += size;
    }
    starts
}

/// A byte or two of the headers altered.
fn spoil(chance: &mut Chance, ring: &mut [u8], capacity: u64, starts: &[u64]) {
    for _ in 0..1 + chance.below(2) {
        let at = starts[chance.below(starts.len())] + [0, 1, 2, 3, 4, 5, 6, 7, 8, 29, 31][chance.below(11)];
        store(ring, capacity, at, &[[0, 1, 31, 32, 33, 255][chance.below(6)]]);
    }
}

/// Noise alone, or events of one length, small ones, large ones, or one that takes all; half of them spoilt.
fn any_ring(chance: &mut Chance, capacity: u64) -> (Vec<u8>, Page) {
    let (tail, write) = any_positions(chance, capacity);
    let mut ring = ring_with_positions(chance, capacity, tail, write);
    let page = open(&ring).unwrap();
    if chance.below(4) > 0 {
        let spread = [1, 40, capacity / 8, capacity / 2, 8 * capacity][chance.below(5)];
        let starts = put_events(chance, &mut ring, &page, spread);
        if !starts.is_empty() && chance.below(2) > 0 {
            spoil(chance, &mut ring, capacity, &starts);
        }
    }
    (ring, page)
}

/// More of the small ones, which cost less; the same rings for each test.
pub fn any_rings() -> impl Iterator<Item = (Vec<u8>, Page)> {
    let mut chance = Chance(7);
    let each = capacities().flat_map(|capacity| (0..64 + (1 << 18) / capacity).map(move |_| capacity));
    each.map(move |capacity| any_ring(&mut chance, capacity))
}

/// A ring without a free byte, and no event of it is larger than half the capacity.
pub fn full_ring(chance: &mut Chance, capacity: u64) -> (Vec<u8>, Page) {
    let tail = far(chance) % (HIGHEST_POSITION - capacity);
    let mut ring = ring_with_positions(chance, capacity, tail, tail + capacity);
    let page = open(&ring).unwrap();
    put_events(chance, &mut ring, &page, capacity / 4);
    (ring, page)
}
