//! Refusals 1 to 6 and 10 come before any byte of the recording, in inspection's order.

use super::*;

/// None of them matters beside a ring that is refused: its own, altered at both ends, shorter, longer, and none.
fn whatever(recording: &[u8]) -> Vec<Vec<u8>> {
    let last = recording.len() - 1;
    vec![
        recording.to_vec(),
        with_byte(recording, 0, 0x20),
        with_byte(recording, last, 0x80),
        recording[..last].to_vec(),
        [recording, &[0]].concat(),
        Vec::new(),
    ]
}

fn refused(ring: &[u8], recording: &[u8], refusal: Refusal) {
    assert_eq!(inspect(ring), Err(refusal));
    for other in whatever(recording) {
        assert_eq!(verify(ring, &other), Err(refusal), "{} bytes", other.len());
    }
}

/// One fault after the other is added, the one asked last first; each time the new one is told.
#[test]
fn the_order_is_inspections() {
    let mut ring = wrapped();
    let recording = recorded(&ring);
    ring[PAGES + 160 + 6] = 4;
    refused(&ring, &recording, Refusal::Damaged { at: 416, why: Reason::CpuId });
    ring[PAGES + 32 + 31] = 1;
    refused(&ring, &recording, Refusal::Damaged { at: 288, why: Reason::SpareBytes });
    set_word(&mut ring, 64, 545);
    refused(&ring, &recording, Refusal::Position);
    ring.push(0);
    refused(&ring, &recording, Refusal::Length);
    ring[191] = 1;
    refused(&ring, &recording, Refusal::Layout);
    ring[11] = 1;
    refused(&ring, &recording, Refusal::Version);
    ring[7] = b'g';
    refused(&ring, &recording, Refusal::Magic);
    refused(&ring[..8447], &recording, Refusal::Short);
    refused(&[], &recording, Refusal::Short);
}

/// In the first event and in the second, which goes over the data's end; the recording agrees up to there, or not at all.
#[test]
fn a_bad_event_is_told_with_its_place_and_reason() {
    let recording = recorded(&wrapped());
    let fields = [
        (4, 31, Reason::HeaderSize),
        (5, 1, Reason::HeaderSize),
        (0, 31, Reason::EventSizeUnder32),
        (2, 1, Reason::PastWritePos),
        (7, 3, Reason::CpuId),
        (29, 1, Reason::SpareBytes),
        (8, 0, Reason::SequenceNotRising),
    ];
    for (start, at) in [(32, 288), (160, 416)] {
        for (offset, byte, why) in fields {
            let mut ring = wrapped();
            ring[PAGES + start + offset] = byte;
            refused(&ring, &recording, Refusal::Damaged { at, why });
        }
        for left in [1, 31] {
            let mut ring = wrapped();
            set_word(&mut ring, 64, at + left);
            refused(&ring, &recording, Refusal::Damaged { at, why: Reason::FewBytesLeft });
        }
    }
}

/// Its bytes as they stand, between an opening and a closing, are no recording; nor are the events before the bad one.
#[test]
fn a_bad_ring_has_no_recording() {
    let mut ring = wrapped();
    let recording = recorded(&ring);
    ring[PAGES + 160 + 29] = 1;
    let refusal = Refusal::Damaged { at: 416, why: Reason::SpareBytes };
    refused(&ring, &with_byte(&recording, 136 + 29, 1), refusal);
    let up_to_it = [&recording[..136], &[0; 8], &[1, 0, 0, 0, 0, 0, 0, 0], &[5, 0, 0, 0, 0, 0, 0, 0]].concat();
    refused(&ring, &up_to_it, refusal);
}
