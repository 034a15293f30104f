//! Recordings that end sooner or go on longer.

use super::*;

#[test]
fn of_two_lengths_the_shorter_is_named() {
    for ring in rings() {
        let recording = recorded(&ring);
        for length in 0..recording.len() {
            assert_eq!(verify(&ring, &recording[..length]), differs_at(length));
        }
        for more in [1, 2, 7, 8, 24, 1000, 1_048_576] {
            for byte in [0, 0x53, 0xFF] {
                let longer = [&recording[..], &vec![byte; more]].concat();
                assert_eq!(verify(&ring, &longer), differs_at(recording.len()), "{more} bytes more");
            }
        }
    }
}

/// Also where what is left out are zeros, so that a missing byte can't be taken for one.
#[test]
fn zeros_at_the_end_count() {
    let ring = lived(256, 3, &[0]);
    let recording = recorded(&ring);
    assert_eq!(recording[49..], [0; 15]);
    for length in 49..64 {
        assert_eq!(verify(&ring, &recording[..length]), differs_at(length));
        assert_eq!(verify(&ring, &[&recording[..], &recording[length..]].concat()), differs_at(64));
    }
}

#[test]
fn a_difference_comes_before_the_end_of_either() {
    for ring in rings() {
        let recording = recorded(&ring);
        for place in 0..recording.len() {
            let altered = with_byte(&recording, place, 0x11);
            assert_eq!(verify(&ring, &[&altered[..], &[0; 40]].concat()), differs_at(place));
            assert_eq!(verify(&ring, &altered[..place + 1]), differs_at(place));
            assert_eq!(verify(&ring, &altered[..place]), differs_at(place));
            assert_eq!(verify(&ring, &altered[..place / 2]), differs_at(place / 2));
        }
    }
}

/// Two recordings one behind the other, one without its opening, one without its closing.
#[test]
fn parts_of_recordings_are_none() {
    let ring = wrapped();
    let recording = recorded(&ring);
    assert_eq!(verify(&ring, &[&recording[..], &recording].concat()), differs_at(288));
    assert_eq!(verify(&ring, &recording[8..]), differs_at(0));
    assert_eq!(verify(&ring, &recording[..264]), differs_at(264));
    assert_eq!(verify(&ring, &recording[264..]), differs_at(0));
}
