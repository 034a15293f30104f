//! A record made by hand is outside the promise: it may point into a payload that looks like an event.

use super::*;

#[test]
fn a_payload_that_looks_like_an_event() {
    let within = encoded(77, &[1, 2, 3, 4]);
    let (mut ring, mut writer) = (fresh(256), Writer::default());
    for payload in [&[][..], &within] {
        writer = emit_encoded(&mut ring, writer, payload).1;
    }
    // Event 2 begins at 32 and its payload at 64.
    let by_hand = Reader { read_pos: 64, last: 1, handed: 1, generation: 1 };
    let mut output = vec![0; within.len()];
    let (answer, _) = copy(&ring, by_hand, &mut output).unwrap();
    let slip = Slip { position: 64, size: 36, sequence: 77, tail_seen: 0 };
    assert_eq!((slip_of(answer), &output), (slip, &within));
    let (answer, after) = confirm(&ring, by_hand, slip).unwrap();
    assert_eq!((answer, after.last), (Confirmed::Done, 77));
    assert_eq!((writer.last, inspect(&ring).unwrap().last), (2, 2), "nothing was emitted under 77");
}
