//! The largest ring, without a free byte and over the data's end.

use super::*;

const CAPACITY: usize = 1_048_576;

#[test]
fn the_longest_recording() {
    let ring = lived(CAPACITY, 0x5AA5, &[CAPACITY / 2 - 32, CAPACITY / 4 - 32, CAPACITY / 2 - 32, CAPACITY / 4 - 32]);
    let recording = recorded(&ring);
    assert_eq!(recording.len(), 1_048_608);
    assert_eq!(verify(&ring, &recording), SAME);
    let (data_end, last) = (8 + CAPACITY / 2, recording.len() - 1);
    for place in [0, 8, data_end - 1, data_end, CAPACITY / 2 + 40, last - 24, last] {
        assert_eq!(verify(&ring, &with_byte(&recording, place, 4)), differs_at(place));
    }
    assert_eq!(verify(&ring, &recording[..last]), differs_at(last));
    assert_eq!(verify(&ring, &[&recording[..], &[0]].concat()), differs_at(last + 1));
    assert_eq!(verify(&ring, &[]), differs_at(0));
}
