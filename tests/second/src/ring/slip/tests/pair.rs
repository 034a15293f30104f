//! Copying and confirming at once is reading: the same answer, the same record, the same bytes of the output buffer.

use super::*;
use crate::ring::chance::Chance;
use std::collections::BTreeMap;

fn pair(ring: &[u8], reader: Reader, output: &mut [u8]) -> Result<(ReadAnswer, Reader), Refusal> {
    let (answer, after) = copy(ring, reader, output)?;
    let slip = match answer {
        Copied::Event(slip) => slip,
        Copied::Empty => return Ok((ReadAnswer::Empty, after)),
        Copied::Moved => return Ok((ReadAnswer::Moved, after)),
    };
    assert_eq!(after, reader, "the record stays");
    assert!(slip.tail_seen == tail_pos(ring) && slip.tail_seen <= slip.position);
    let (answer, after) = confirm(ring, reader, slip)?;
    assert_eq!(answer, Confirmed::Done);
    Ok((ReadAnswer::Event(slip.size), after))
}

/// Events behind each other, some of them with bytes of their headers altered, and write_pos anywhere near the end.
fn any_ring(chance: &mut Chance) -> Vec<u8> {
    let capacity = 256 << chance.below(3);
    let tail = [0, 200, 5000, (1 << 62) - capacity as u64 - 100][chance.below(4)] + chance.below(90) as u64;
    let (mut bytes, mut starts, mut sequence) = (Vec::new(), Vec::new(), [0, u64::MAX - 100][chance.below(2)]);
    while bytes.len() + 32 <= capacity && chance.below(6) > 0 {
        sequence += 1 + chance.below(3) as u64;
        starts.push(bytes.len());
        let payload = chance.below(90).min(capacity - bytes.len() - 32);
        bytes.extend(encoded(sequence, &vec![sequence as u8; payload]));
    }
    if !starts.is_empty() {
        for _ in 0..chance.below(4) {
            let at = starts[chance.below(starts.len())] + [0, 1, 4, 5, 6, 7, 8, 29, 30, 31][chance.below(10)];
            bytes[at] = [0, 1, 2, 31, 32, 33, 255][chance.below(7)];
        }
    }
    let more = if chance.below(4) == 0 { chance.below(60) as u64 } else { 30 };
    let write = (tail + bytes.len() as u64 + more).saturating_sub(30).clamp(tail, tail + capacity as u64);
    let mut ring = with_positions(capacity, tail, write);
    for (position, byte) in (tail..).zip(bytes) {
        ring[PAGES + (position % capacity as u64) as usize] = byte;
    }
    ring
}

/// One of refusals 1 to 6 in some of its ways, or none.
fn spoil_page(chance: &mut Chance, ring: &mut Vec<u8>) {
    let (tail, capacity) = (tail_pos(ring), (ring.len() - PAGES) as u64);
    match chance.below(24) {
        1 => ring.truncate(chance.below(PAGES + 256)),
        2 => ring[chance.below(8)] ^= 1,
        3 => ring[8 + chance.below(4)] ^= 2,
        4 => ring[[14, 16, 24, 40, 63, 80, 127, 132, 191][chance.below(9)]] ^= 1,
        5 => ring.push(0),
        6 => set_word(ring, 64, [tail.wrapping_sub(1), tail + capacity + 1, (1 << 62) + 1][chance.below(3)]),
        _ => {}
    }
}

fn any_reader(chance: &mut Chance, ring: &[u8]) -> Reader {
    let (tail, write) = if ring.len() < 80 { (0, 0) } else { (tail_pos(ring), write_pos(ring)) };
    let inside = tail + chance.below(200) as u64;
    let positions = [0, tail.wrapping_sub(1), tail, tail, tail, inside, write, write, write.wrapping_add(1), u64::MAX];
    let last = [0, 0, 1, 2, 5, u64::MAX - 100, u64::MAX - 95, u64::MAX][chance.below(8)];
    let handed = [0, 0, last, last / 2, last.saturating_add(1)][chance.below(5)];
    Reader { read_pos: positions[chance.below(10)], last, handed, generation: 1 + chance.below(2) as u64 }
}

/// What was answered, and whether read_pos was below the tail.
fn kind(outcome: &Result<(ReadAnswer, Reader), Refusal>, ring: &[u8], reader: Reader) -> String {
    match outcome {
        Err(Refusal::Damaged { why, .. }) => format!("refused 10 why {}", why.number()),
        Err(refusal) => format!("refused {}", refusal.number()),
        Ok((answer, _)) => {
            let place = if reader.read_pos < tail_pos(ring) { "lapped" } else { "in the ring" };
            let answer = match answer {
                ReadAnswer::Event(_) => "event",
                ReadAnswer::Empty => "empty",
                ReadAnswer::Moved => "moved",
            };
            format!("{answer}, {place}")
        }
    }
}

#[test]
fn copy_and_confirm_at_once_are_read() {
    let mut chance = Chance(6);
    let mut kinds = BTreeMap::new();
    for turn in 0..300_000 {
        let mut ring = any_ring(&mut chance);
        spoil_page(&mut chance, &mut ring);
        let reader = any_reader(&mut chance, &ring);
        let mut by_read = vec![turn as u8; [0, 31, 32, 33, 60, 100, 1024, 1024][chance.below(8)]];
        let mut by_pair = by_read.clone();
        let outcome = read(&ring, reader, &mut by_read);
        assert_eq!(pair(&ring, reader, &mut by_pair), outcome);
        assert_eq!(by_pair, by_read);
        *kinds.entry(kind(&outcome, &ring, reader)).or_insert(0) += 1;
    }
    // Three answers in two places, refusals 1 to 6, 13 and 14, and seven reasons of 10.
    assert!(kinds.len() == 6 + 8 + 7 && kinds.values().all(|count| *count >= 100), "{kinds:?}");
}

/// With the whole output buffer lent and with one byte less than the event, at each event of a ring.
#[test]
fn the_output_buffer_is_as_long_as_the_event() {
    let (mut ring, mut writer) = (fresh(512), Writer::default());
    let mut reader = attach(&ring).unwrap();
    for payload in [0, 1, 31, 32, 100, 200, 0, 224] {
        writer = emit_encoded(&mut ring, writer, &vec![writer.last as u8; payload]).1;
        let mut output = vec![0xCC; 32 + payload];
        let shorter = &mut output[1..];
        assert_eq!(copy(&ring, reader, shorter), Err(Refusal::Out));
        assert!(shorter.iter().all(|byte| *byte == 0xCC));
        reader = pair(&ring, reader, &mut output).unwrap().1;
        assert_eq!(reader.last, writer.last);
    }
}
