//! The first place that differs, whatever part of the recording it lies in.

use super::*;

#[test]
fn each_byte_that_alone_differs_is_named() {
    for ring in rings() {
        let recording = recorded(&ring);
        assert_eq!(verify(&ring, &recording), SAME);
        for place in 0..recording.len() {
            for change in [1, 0x20, 0x80, 0xFF] {
                assert_eq!(verify(&ring, &with_byte(&recording, place, change)), differs_at(place));
            }
        }
    }
}

/// The other way round: the recording stays and a byte of an event does, where inspection doesn't look at it.
#[test]
fn each_byte_of_the_ring_that_alone_differs_is_named() {
    let recording = recorded(&wrapped());
    for step in (16..29).chain(32..128).chain(128 + 16..128 + 29).chain(160..256) {
        let mut ring = wrapped();
        ring[PAGES + (288 + step) % 256] ^= 0x40;
        assert_eq!(verify(&ring, &recording), differs_at(8 + step));
    }
}

#[test]
fn of_two_the_first_is_named() {
    for ring in [fresh(256, 3), lived(256, 0x0102, &[1]), high_sequences()] {
        let recording = recorded(&ring);
        for first in 0..recording.len() {
            for second in first + 1..recording.len() {
                let altered = with_byte(&with_byte(&recording, second, 0xFF), first, 1);
                assert_eq!(verify(&ring, &altered), differs_at(first), "{first} and {second}");
            }
        }
    }
}

/// Not by the ring's position, nor from the tail: one recording, wherever its events lie.
#[test]
fn the_place_is_the_same_at_every_position() {
    let (start, recording) = (lived(256, 3, &[40]), recorded(&lived(256, 3, &[40])));
    for tail in [0, 1, 200, 255, 256 * 9 + 230, (1 << 62) - 72] {
        let mut ring = fresh(256, 3);
        set_word(&mut ring, 64, tail + 72);
        set_word(&mut ring, 72, tail);
        for step in 0..72 {
            ring[PAGES + (tail as usize + step) % 256] = start[PAGES + step];
        }
        assert_eq!(verify(&ring, &recording), SAME);
        for place in 0..recording.len() {
            assert_eq!(verify(&ring, &with_byte(&recording, place, 2)), differs_at(place), "tail {tail}");
        }
    }
}

/// Bytes that are no part of the recording: the consumer's, the counter, the generation, those that nobody looks at, free room.
#[test]
fn other_bytes_of_the_ring_do_not_differ() {
    let mut ring = lived(256, 3, &[20, 30]);
    let recording = recorded(&ring);
    for at in (32..33).chain(128..132).chain(192..PAGES).chain(PAGES + 114..PAGES + 256) {
        ring[at] = 0xC3;
    }
    assert_eq!(verify(&ring, &recording), SAME);
    assert_eq!(verify(&ring, &with_byte(&recording, 100, 1)), differs_at(100));
}
