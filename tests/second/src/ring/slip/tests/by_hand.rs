//! Small cases worked by hand.

use super::*;

/// Four events of 64 bytes, which fill 256, and a reader that has been handed the first.
fn four_events() -> (Vec<u8>, Writer, Reader) {
    let (mut ring, mut writer) = (fresh(256), Writer::default());
    for byte in 1..=4 {
        writer = emit_encoded(&mut ring, writer, &[byte; 32]).1;
    }
    (ring, writer, Reader { read_pos: 64, last: 1, handed: 1, generation: 1 })
}

fn after_emissions(payloads: &[usize]) -> (Slip, Result<(Confirmed, Reader), Refusal>) {
    let (mut ring, mut writer, reader) = four_events();
    let (answer, unmoved) = copy(&ring, reader, &mut [0; 64]).unwrap();
    assert_eq!(unmoved, reader);
    for payload in payloads {
        writer = emit_encoded(&mut ring, writer, &vec![0; *payload]).1;
    }
    (slip_of(answer), confirm(&ring, reader, slip_of(answer)))
}

#[test]
fn the_tail_may_rise_up_to_the_event() {
    let advanced = Reader { read_pos: 128, last: 2, handed: 2, generation: 1 };
    let (slip, confirmed) = after_emissions(&[]);
    assert_eq!(slip, Slip { position: 64, size: 64, sequence: 2, tail_seen: 0 });
    assert_eq!(confirmed, Ok((Confirmed::Done, advanced)));
    // The tail is at 64: above the tail seen and not above the event.
    assert_eq!(after_emissions(&[0]).1, Ok((Confirmed::Done, advanced)));
    assert_eq!(after_emissions(&[32]).1, Ok((Confirmed::Done, advanced)));
}

#[test]
fn above_the_event_it_is_again() {
    for (payloads, tail) in [(&[0, 32][..], 128), (&[33], 128), (&[96], 128), (&[96, 96], 256), (&[96, 96, 96], 384)] {
        let again = Reader { read_pos: tail, last: 1, handed: 1, generation: 1 };
        assert_eq!(after_emissions(payloads).1, Ok((Confirmed::Again, again)), "{payloads:?}");
    }
}

/// By the position alone it would be AGAIN at 499, whatever tail was seen. No copy hands out a slip like the last two.
#[test]
fn a_tail_seen_above_the_position() {
    let ring = with_positions(256, 500, 700);
    let reader = Reader { read_pos: 400, last: 8, handed: 3, generation: 1 };
    for (tail_seen, answer) in [(0, Confirmed::Again), (499, Confirmed::Again), (500, Confirmed::Done), (501, Confirmed::Done)] {
        let slip = Slip { position: 499, size: 32, sequence: 9, tail_seen };
        assert_eq!(confirm(&ring, reader, slip).unwrap().0, answer, "tail seen {tail_seen}");
        let slip = Slip { position: 500, ..slip };
        assert_eq!(confirm(&ring, reader, slip).unwrap().0, Confirmed::Done, "tail seen {tail_seen}");
    }
}

#[test]
fn a_lapped_reader_stays_until_it_confirms() {
    let (mut ring, writer, _) = four_events();
    emit_encoded(&mut ring, writer, &[7; 96]);
    let lapped = Reader { read_pos: 0, last: 0, handed: 0, generation: 9 };
    let mut output = [0xAA; 80];
    let (answer, unmoved) = copy(&ring, lapped, &mut output).unwrap();
    assert_eq!((slip_of(answer), unmoved), (Slip { position: 128, size: 64, sequence: 3, tail_seen: 128 }, lapped));
    assert_eq!((&output[..64], &output[64..]), (&encoded(3, &[3; 32])[..], &[0xAA; 16][..]));
    let advanced = Reader { read_pos: 192, last: 3, handed: 1, generation: 9 };
    assert_eq!(confirm(&ring, lapped, slip_of(answer)), Ok((Confirmed::Done, advanced)));
}

#[test]
fn nothing_left_below_the_tail() {
    let ring = with_positions(256, 500, 500);
    for (generation, answer) in [(1, Copied::Empty), (2, Copied::Moved)] {
        for read_pos in [0, 499, 500] {
            let reader = Reader { read_pos, last: 8, handed: 3, generation };
            assert_eq!(copy(&ring, reader, &mut []), Ok((answer, Reader { read_pos: 500, ..reader })));
        }
    }
}

/// After it the reader stands behind the event, or at the tail above the event's start.
#[test]
fn a_slip_serves_once() {
    let (mut ring, writer, reader) = four_events();
    let slip = slip_of(copy(&ring, reader, &mut [0; 64]).unwrap().0);
    let (_, advanced) = confirm(&ring, reader, slip).unwrap();
    assert_eq!(confirm(&ring, advanced, slip), Err(Refusal::Reader));
    emit_encoded(&mut ring, writer, &[0; 96]);
    let (_, sent_back) = confirm(&ring, reader, slip).unwrap();
    assert_eq!(confirm(&ring, sent_back, slip), Err(Refusal::Reader));
}

#[test]
fn confirming_looks_at_no_event_and_no_generation() {
    let (mut ring, _, reader) = four_events();
    let slip = slip_of(copy(&ring, reader, &mut [0; 64]).unwrap().0);
    let confirmed = confirm(&ring, reader, slip);
    ring[PAGES..].fill(0xFF);
    set_word(&mut ring, 32, u64::MAX);
    assert_eq!(confirm(&ring, reader, slip), confirmed);
}
