//! The recording (1 to 6, 10 by inspection, then 13): change request K2.

use super::bytes::set;
use super::inspect::inspect;
use super::page::open;
use super::reader::{attach, read, ReadAnswer, Reader};
use super::Refusal;

pub const MARK: [u8; 3] = *b"SPL";
pub const VERSION: u64 = 1;
pub const OPENING: usize = 8;
pub const CLOSING: usize = 24;

/// Puts at the output's front what fits of the recording from `placed` on, and says how many bytes that is.
pub fn record(ring: &[u8], placed: u64, output: &mut [u8]) -> Result<usize, Refusal> {
    inspect(ring)?;
    let recording = whole_recording(ring)?;
    // The request gives this condition the reader's number, which no other one here uses.
    if placed > recording.len() as u64 {
        return Err(Refusal::Reader);
    }
    let remains = &recording[placed as usize..];
    let count = remains.len().min(output.len());
    output[..count].copy_from_slice(&remains[..count]);
    Ok(count)
}

/// Taken at its word: a reader is attached and reads until EMPTY. It can't be told MOVED, since it has the page's generation.
pub fn whole_recording(ring: &[u8]) -> Result<Vec<u8>, Refusal> {
    let mut recording = opening(open(ring)?.cpu_id);
    let mut reader = attach(ring)?;
    let mut event = vec![0; ring.len()];
    while let (ReadAnswer::Event(size), after) = read(ring, reader, &mut event)? {
        recording.extend_from_slice(&event[..size as usize]);
        reader = after;
    }
    recording.extend_from_slice(&closing(reader));
    Ok(recording)
}

fn opening(cpu_id: u64) -> Vec<u8> {
    let mut opening = vec![0; OPENING];
    opening[..3].copy_from_slice(&MARK);
    set(&mut opening, 3, 2, VERSION);
    set(&mut opening, 5, 2, cpu_id);
    opening
}

/// Missed is what it is for every reader: last minus handed.
fn closing(reader: Reader) -> Vec<u8> {
    let mut closing = vec![0; CLOSING];
    set(&mut closing, 8, 8, reader.handed);
    set(&mut closing, 16, 8, reader.last - reader.handed);
    closing
}

/// Recordings worked by hand, and what the calls do to the buffers.
#[cfg(test)]
mod tests {
    use crate::ring::*;

    /// With cpu_id 3.
    const OPENING: [u8; 8] = [0x53, 0x50, 0x4C, 1, 0, 3, 0, 0];

    fn fresh(capacity: usize, cpu_id: u16) -> Vec<u8> {
        let mut ring = vec![0xFF; PAGES + capacity];
        create(&mut ring, cpu_id).unwrap();
        ring
    }

    fn emitted(ring: &mut [u8], writer: Writer, payload: &[u8]) -> Writer {
        emit(ring, writer, &NewEvent { timestamp: 0x0605, event_type: 0x0807, origin_class: 9, payload }).unwrap().1
    }

    /// Events 6 and 7 are kept and five overwritten; event 7 passes the end of the data region within its payload.
    fn wrapped() -> Vec<u8> {
        let mut ring = fresh(256, 3);
        let mut writer = Writer::default();
        for (payload, byte) in [(32, 1), (32, 2), (32, 3), (32, 4), (0, 5), (96, 0x66), (96, 0x77)] {
            writer = emitted(&mut ring, writer, &vec![byte; payload]);
        }
        assert_eq!(writer.overwritten, 5);
        ring
    }

    fn event(sequence: u8, size: u8, cpu_id: [u8; 2], payload: &[u8]) -> Vec<u8> {
        let numbers = [size, 0, 0, 0, 32, 0, cpu_id[0], cpu_id[1], sequence, 0, 0, 0, 0, 0, 0, 0];
        let rest = [5, 6, 0, 0, 0, 0, 0, 0, 7, 8, 0, 0, 9, 0, 0, 0];
        [&numbers[..], &rest, payload].concat()
    }

    fn counts(handed: u8, missed: u8) -> Vec<u8> {
        [&[0; 8][..], &[handed, 0, 0, 0, 0, 0, 0, 0], &[missed, 0, 0, 0, 0, 0, 0, 0]].concat()
    }

    fn whole(ring: &[u8]) -> Vec<u8> {
        let mut output = vec![0xEE; 2000];
        let count = record(ring, 0, &mut output).unwrap();
        assert!(output[count..].iter().all(|byte| *byte == 0xEE));
        output.truncate(count);
        output
    }

    #[test]
    fn an_empty_ring() {
        assert_eq!(whole(&fresh(256, 3)), [&OPENING[..], &[0; 24]].concat());
    }

    /// Emptied by hand, far from position 0 and with old bytes in the data region.
    #[test]
    fn a_ring_whose_tail_reached_write() {
        let mut ring = wrapped();
        let write_pos: [u8; 8] = ring[64..72].try_into().unwrap();
        ring[72..80].copy_from_slice(&write_pos);
        assert_eq!(whole(&ring), [&OPENING[..], &[0; 24]].concat());
    }

    #[test]
    fn one_event() {
        let mut ring = fresh(512, 0x0102);
        emitted(&mut ring, Writer::default(), &[0xAA, 0xBB]);
        let opening = [0x53, 0x50, 0x4C, 1, 0, 2, 1, 0];
        assert_eq!(whole(&ring), [&opening[..], &event(1, 34, [2, 1], &[0xAA, 0xBB]), &counts(1, 0)].concat());
    }

    #[test]
    fn a_wrapped_event() {
        let events = [event(6, 128, [3, 0], &[0x66; 96]), event(7, 128, [3, 0], &[0x77; 96])].concat();
        assert_eq!(whole(&wrapped()), [&OPENING[..], &events, &counts(2, 5)].concat());
    }

    /// Dropped events took sequences too, but only those below the last kept one are missed.
    #[test]
    fn drops_before_the_last_kept_event() {
        let mut ring = fresh(256, 3);
        let mut writer = Writer::default();
        for payload in [97, 97, 0, 97] {
            writer = emitted(&mut ring, writer, &vec![0; payload]);
        }
        assert_eq!((writer.last, writer.dropped), (4, 3));
        assert_eq!(whole(&ring), [&OPENING[..], &event(3, 32, [3, 0], &[]), &counts(1, 2)].concat());
    }

    #[test]
    fn pieces_of_any_sizes_joined_give_the_whole() {
        for ring in [fresh(256, 3), wrapped()] {
            for lent in 1..=300 {
                assert_eq!(joined(&ring, |_| lent), whole(&ring), "pieces of {lent}");
            }
            assert_eq!(joined(&ring, |placed| 1 + placed * 7 % 41), whole(&ring));
        }
    }

    fn joined(ring: &[u8], lent: impl Fn(usize) -> usize) -> Vec<u8> {
        let mut joined = Vec::new();
        let mut count = 1;
        while count > 0 {
            let mut output = vec![0xEE; lent(joined.len())];
            count = record(ring, joined.len() as u64, &mut output).unwrap();
            joined.extend_from_slice(&output[..count]);
        }
        joined
    }

    #[test]
    fn the_rest_of_the_output_stays() {
        let (ring, expected) = (wrapped(), whole(&wrapped()));
        for placed in 0..=expected.len() {
            let mut output = [0xEE; 40];
            let count = record(&ring, placed as u64, &mut output).unwrap();
            assert_eq!(count, (expected.len() - placed).min(40));
            assert_eq!(output[..count], expected[placed..placed + count]);
            assert!(output[count..].iter().all(|byte| *byte == 0xEE), "from {placed}");
        }
    }

    #[test]
    fn nothing_lent_or_nothing_left_places_nothing() {
        let mut output = [0xEE; 40];
        for ring in [fresh(256, 3), wrapped()] {
            let length = whole(&ring).len() as u64;
            assert_eq!((record(&ring, 0, &mut []), record(&ring, length, &mut [])), (Ok(0), Ok(0)));
            assert_eq!(record(&ring, length, &mut output), Ok(0));
        }
        assert_eq!(output, [0xEE; 40]);
    }

    #[test]
    fn a_place_above_the_length_is_refused() {
        let mut output = [0xEE; 40];
        for ring in [fresh(256, 3), wrapped()] {
            let length = whole(&ring).len() as u64;
            for placed in [length + 1, 1 << 32, (1 << 32) + 8, 1 << 63, u64::MAX - length, u64::MAX] {
                assert_eq!(record(&ring, placed, &mut output), Err(Refusal::Reader), "placed {placed}");
                assert_eq!(record(&ring, placed, &mut []), Err(Refusal::Reader), "placed {placed}");
            }
        }
        assert_eq!(output, [0xEE; 40]);
    }

    /// Also where the piece asked for lies before the damaged event, holds no byte, or can't exist.
    #[test]
    fn damage_is_refused_first_and_everywhere() {
        let mut ring = wrapped();
        ring[PAGES + (288 + 128) % 256 + 4] = 33;
        for placed in [0, 8, 288, 289, u64::MAX] {
            for lent in [0, 8, 40] {
                let mut output = vec![0xEE; lent];
                assert_eq!(record(&ring, placed, &mut output), Err(Refusal::Damaged { at: 416, why: Reason::HeaderSize }));
                assert_eq!(output, vec![0xEE; lent]);
            }
        }
        ring[8] = 2;
        assert_eq!(record(&ring, u64::MAX, &mut []), Err(Refusal::Version));
        assert_eq!(record(&ring[..8447], u64::MAX, &mut []), Err(Refusal::Short));
    }

    /// The consumer's bytes, the counter, the generation and bytes that nobody looks at are no part of it.
    #[test]
    fn only_events_and_cpu_id_are_recorded() {
        let (mut ring, expected) = (wrapped(), whole(&wrapped()));
        for at in (32..33).chain(128..132).chain(192..PAGES) {
            ring[at] = 0xC3;
        }
        assert_eq!(whole(&ring), expected);
    }
}
