//! Change request K7: the walk needs no refusal of its own where the tail has come to write_pos. The walk that the paper first
//! had, with NO ROOM in it, is kept here alone and tried on any rings that pass 1 to 6.

mod rings;

use super::walk;
use crate::ring::bytes::get;
use crate::ring::chance::Chance;
use crate::ring::event::{well_formed, HEADER};
use crate::ring::page::{Page, TAIL_POS, WRITE_POS};
use crate::ring::*;
use rings::{any_rings, below, capacities, full_ring};
use std::collections::BTreeSet;

/// Where the tail ended, and the events passed.
type End = (u64, u64);

#[derive(Debug, PartialEq, Eq)]
enum OldRefusal {
    NoRoom,
    Still(Refusal),
}

/// Passes events until the rest and `size` bytes more fit a capacity: the ring's own in an emission; in a swap, which stores
/// nothing more, the new ring's.
fn old_walk(ring: &[u8], page: &Page, size: u64, capacity: u64) -> Result<End, OldRefusal> {
    let mut tail = page.tail_pos;
    let mut passed = 0;
    while page.write_pos + size - tail > capacity {
        if tail == page.write_pos {
            return Err(OldRefusal::NoRoom);
        }
        let event = well_formed(ring, page, tail).map_err(|why| OldRefusal::Still(Refusal::Damaged { at: tail, why }))?;
        tail += event.size;
        passed += 1;
    }
    Ok((tail, passed))
}

/// The old walk's end in an emission, which must be the walk's.
fn end_of_both(ring: &[u8], page: &Page, size: u64) -> Result<End, OldRefusal> {
    let old = old_walk(ring, page, size, page.capacity);
    assert_eq!(walk(ring, page, size).map_err(OldRefusal::Still), old, "{size} bytes, {page:?}");
    old
}

/// By the ring and the record that a whole emission hands back. The record is one that 11 doesn't refuse.
fn end_of_emission(ring: &[u8], size: u64) -> Result<End, Refusal> {
    let mut ring = ring.to_vec();
    let writer = Writer { last: u64::MAX - 1, dropped: 0, overwritten: 0 };
    let new = NewEvent { timestamp: 1, event_type: 2, origin_class: 3, payload: &vec![4; (size - HEADER) as usize] };
    let (_, after) = emit(&mut ring, writer, &new)?;
    Ok((get(&ring, TAIL_POS, 8), after.overwritten))
}

/// By the new ring and the record that a whole swap hands back. The old ring's events are all that the record counts.
fn end_of_swap(ring: &[u8], new: &mut [u8]) -> Result<End, Refusal> {
    let writer = Writer { last: inspect(ring)?.count, dropped: 0, overwritten: 0 };
    let mut old = ring.to_vec();
    let (_, after) = swap(&mut old, new, writer)?;
    Ok((get(&old, WRITE_POS, 8) - get(new, WRITE_POS, 8), after.overwritten))
}

/// Every size that isn't dropped, up to a capacity of 1,024. Above it those at the edges, and two others.
fn sizes(chance: &mut Chance, page: &Page) -> Vec<u64> {
    let half = page.capacity / 2;
    if page.capacity <= 1024 {
        return (HEADER..=half).collect();
    }
    let free = page.capacity - (page.write_pos - page.tail_pos);
    let sizes = [HEADER, half - 1, half, free, free + 1, below(chance, half), below(chance, half)];
    sizes.map(|size| size.clamp(HEADER, half)).to_vec()
}

/// How a walk ended, so that it can be seen that each way was met.
fn way(page: &Page, end: &Result<End, OldRefusal>) -> &'static str {
    match end {
        Err(_) => "met a bad event",
        Ok((_, 0)) => "passed none",
        Ok((tail, _)) if *tail == page.write_pos => "passed all",
        Ok(_) => "passed some",
    }
}

#[test]
fn an_emission_ends_as_with_the_old_walk() {
    let (mut chance, mut ways) = (Chance(8), BTreeSet::new());
    for (ring, page) in any_rings() {
        let sizes = sizes(&mut chance, &page);
        for size in &sizes {
            ways.insert((page.capacity, way(&page, &end_of_both(&ring, &page, *size))));
        }
        let size = sizes[chance.below(sizes.len())];
        let far = page.write_pos + size > HIGHEST_POSITION;
        let expected = if far { Err(OldRefusal::Still(Refusal::Far)) } else { old_walk(&ring, &page, size, page.capacity) };
        assert_eq!(end_of_emission(&ring, size).map_err(OldRefusal::Still), expected, "{size} bytes, {page:?}");
    }
    assert_eq!(ways.len(), 13 * 4, "{ways:?}");
}

#[test]
fn every_size_at_every_capacity() {
    let mut chance = Chance(9);
    for capacity in capacities() {
        let (ring, page) = full_ring(&mut chance, capacity);
        for size in HEADER..=capacity / 2 {
            assert!(end_of_both(&ring, &page, size).is_ok_and(|(_, passed)| passed > 0));
        }
    }
}

/// The swap inspects first, so it never comes to its walk where an event is bad; the old walk found room or the bad event there too.
#[test]
fn a_swap_ends_as_with_the_old_walk() {
    let (mut new, mut ways) = (vec![0; PAGES + (1 << 20)], BTreeSet::new());
    for (ring, page) in any_rings() {
        for capacity in capacities() {
            let old = old_walk(&ring, &page, 0, capacity);
            assert_ne!(old, Err(OldRefusal::NoRoom), "to {capacity}, {page:?}");
            match end_of_swap(&ring, &mut new[..PAGES + capacity as usize]) {
                Ok(end) => {
                    assert_eq!(old, Ok(end), "to {capacity}, {page:?}");
                    ways.insert((capacity, way(&page, &old)));
                }
                Err(refusal) => assert_eq!(refusal.number(), 10),
            }
        }
    }
    // Three ways into each capacity but the largest, where all fits.
    assert_eq!(ways.len(), 12 * 3 + 1, "{ways:?}");
}

/// Why the drop has to come before the walk. The walk ends here too: behind write_pos there is no event to pass.
#[test]
fn one_byte_above_the_capacity_there_was_no_room() {
    let mut chance = Chance(10);
    for capacity in capacities() {
        let (ring, page) = full_ring(&mut chance, capacity);
        assert!(end_of_both(&ring, &page, capacity).is_ok_and(|(tail, _)| tail == page.write_pos));
        assert_eq!(old_walk(&ring, &page, capacity + 1, capacity), Err(OldRefusal::NoRoom));
        let at_the_end = Refusal::Damaged { at: page.write_pos, why: Reason::FewBytesLeft };
        assert_eq!(walk(&ring, &page, capacity + 1), Err(at_the_end));
    }
}
