//! Recordings worked by hand, with the places that the parts have in them.

use super::*;

/// With cpu_id 3.
const OPENING: [u8; 8] = [0x53, 0x50, 0x4C, 1, 0, 3, 0, 0];

fn counts(handed: u8, missed: u8) -> Vec<u8> {
    [&[0; 8][..], &[handed, 0, 0, 0, 0, 0, 0, 0], &[missed, 0, 0, 0, 0, 0, 0, 0]].concat()
}

#[test]
fn an_empty_ring_has_32_bytes() {
    let recording = [&OPENING[..], &[0; 24]].concat();
    for ring in [fresh(256, 3), fresh(4096, 3), emptied()] {
        assert_eq!(verify(&ring, &recording), SAME);
        assert_eq!(verify(&ring, &[]), differs_at(0));
        assert_eq!(verify(&ring, &OPENING), differs_at(8));
        assert_eq!(verify(&ring, &[&recording[..], &[0]].concat()), differs_at(32));
    }
    assert_eq!(verify(&fresh(256, 4), &recording), differs_at(5));
    assert_eq!(verify(&fresh(256, 0x0103), &recording), differs_at(6));
}

/// The events stand from 8 and from 136 on, the data's end is at 232, the closing at 264, its counts at 272 and 280.
#[test]
fn two_events_over_the_end() {
    let ring = wrapped();
    let events = [&ring[PAGES + 32..], &ring[PAGES..PAGES + 32]].concat();
    let recording = [&OPENING[..], &events, &counts(2, 5)].concat();
    assert_eq!(recording.len(), 288);
    assert_eq!(verify(&ring, &recording), SAME);
    for place in [0, 7, 8, 135, 136, 231, 232, 263, 264, 271, 272, 280, 287] {
        assert_eq!(verify(&ring, &with_byte(&recording, place, 1)), differs_at(place));
    }
    // The two stretches exchanged; the second one left out.
    let exchanged = [&OPENING[..], &ring[PAGES..], &counts(2, 5)].concat();
    assert_eq!(verify(&ring, &exchanged), differs_at(8));
    let first_stretch = [&OPENING[..], &ring[PAGES + 32..], &counts(2, 5)].concat();
    assert_eq!(verify(&ring, &first_stretch), differs_at(232));
}

/// Other counts than the ring's, though they fit each other, or the events that the recording has.
#[test]
fn the_recordings_own_counts_are_not_believed() {
    let ring = wrapped();
    let recording = recorded(&ring);
    for (handed, missed, place) in [(2, 4, 280), (1, 6, 272), (3, 4, 272), (5, 2, 272), (0, 0, 272), (2, 0, 280)] {
        let other = [&recording[..264], &counts(handed, missed)].concat();
        assert_eq!(verify(&ring, &other), differs_at(place), "{handed} handed out, {missed} missed");
    }
    // The first event alone, and the second alone, each with the counts of a ring that has no other.
    let first = [&recording[..136], &counts(1, 5)].concat();
    assert_eq!(verify(&ring, &first), differs_at(136));
    let second = [&OPENING[..], &recording[136..264], &counts(1, 6)].concat();
    assert_eq!(verify(&ring, &second), differs_at(16));
}

/// The closing begins with zeros, and so does the size of an event of 256 bytes: the first byte of a seam may be the same.
#[test]
fn an_event_whose_size_begins_with_a_zero_byte() {
    let ring = lived(512, 3, &[0, 224]);
    let recording = recorded(&ring);
    let without_last = [&recording[..40], &counts(1, 0)].concat();
    assert_eq!(verify(&ring, &without_last), differs_at(41));
    let shorter = lived(512, 3, &[0]);
    assert_eq!(verify(&shorter, &recording), differs_at(41));
}

/// Dropped events took sequences: those below the last kept one are missed, and one after it isn't in the recording.
#[test]
fn events_dropped_before_and_after() {
    let ring = lived(256, 3, &[97, 97, 0]);
    assert_eq!(verify(&ring, &[&OPENING[..], &ring[PAGES..PAGES + 32], &counts(1, 2)].concat()), SAME);
    assert_eq!(verify(&ring, &recorded(&lived(256, 3, &[97, 97, 0, 97]))), SAME);
    assert_eq!(verify(&ring, &recorded(&lived(256, 3, &[97, 0]))), differs_at(16));
}
