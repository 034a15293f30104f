//! Confirm on any numbers, by the request's sentences once more, with sums in 128 bits.

use super::*;
use crate::ring::chance::Chance;
use std::collections::BTreeMap;

const MAX: u64 = u64::MAX;

/// Which of 13's conditions hold, read's two first.
fn conditions(ring: &[u8], reader: Reader, slip: Slip) -> [bool; 6] {
    let end = u128::from(slip.position) + u128::from(slip.size);
    [
        reader.handed > reader.last,
        reader.read_pos > write_pos(ring),
        slip.position < reader.read_pos,
        slip.size < 32,
        end > u128::from(write_pos(ring)),
        slip.sequence <= reader.last,
    ]
}

fn expected(ring: &[u8], reader: Reader, slip: Slip) -> Result<(Confirmed, Reader), Refusal> {
    if conditions(ring, reader, slip).contains(&true) {
        return Err(Refusal::Reader);
    }
    let Reader { read_pos: _, last, handed, generation } = reader;
    let tail = tail_pos(ring);
    Ok(if tail > slip.tail_seen && tail > slip.position {
        (Confirmed::Again, Reader { read_pos: tail, last, handed, generation })
    } else {
        let end = slip.position + slip.size;
        (Confirmed::Done, Reader { read_pos: end, last: slip.sequence, handed: handed + 1, generation })
    })
}

fn near(chance: &mut Chance, of: u64) -> u64 {
    of.wrapping_add(chance.below(5) as u64).wrapping_sub(2)
}

fn any_ring(chance: &mut Chance) -> Vec<u8> {
    let tail = [0, 1, 300, 1 << 40, (1 << 62) - 256][chance.below(5)] + chance.below(3) as u64 * 40;
    let live = [0, 32, 33, 100, 175, 176, 256][chance.below(7)];
    with_positions(256, tail, (tail + live).min(1 << 62))
}

/// Mostly fit for the ring and the record, with some numbers replaced by others near an edge.
fn any_call(chance: &mut Chance, ring: &[u8]) -> (Reader, Slip) {
    let (tail, write) = (tail_pos(ring), write_pos(ring));
    let last = [0, 1, 9, MAX - 1, MAX][chance.below(5)];
    let handed = [0, last, last / 2, last.saturating_add(1)][chance.below(4)];
    let read_pos = [0, tail, tail.saturating_sub(50), write, write + 1, MAX][chance.below(6)];
    let reader = Reader { read_pos, last, handed, generation: chance.below(3) as u64 };
    let position = [read_pos, tail, write.saturating_sub(32), write.saturating_sub(64)][chance.below(4)].max(read_pos);
    let mut slip =
        Slip { position, size: write.saturating_sub(position).max(32), sequence: last.saturating_add(1), tail_seen: tail };
    if chance.below(2) == 0 {
        slip.position = [near(chance, position), near(chance, write), near(chance, tail), near(chance, MAX)][chance.below(4)];
    }
    if chance.below(2) == 0 {
        let past = MAX - slip.position;
        slip.size = [near(chance, 32), near(chance, 0), near(chance, write.wrapping_sub(slip.position)), near(chance, past)]
            [chance.below(4)];
    }
    if chance.below(3) == 0 {
        slip.sequence = [near(chance, last), 0, MAX][chance.below(3)];
    }
    if chance.below(2) == 0 {
        slip.tail_seen = [near(chance, tail), 0, MAX][chance.below(3)];
    }
    (reader, slip)
}

#[test]
fn confirm_is_what_the_sentences_say() {
    let mut chance = Chance(17);
    let (mut alone, mut orders) = ([0; 6], BTreeMap::new());
    for _ in 0..400_000 {
        let ring = any_ring(&mut chance);
        let (reader, slip) = any_call(&mut chance, &ring);
        assert_eq!(confirm(&ring, reader, slip), expected(&ring, reader, slip), "{reader:?}, {slip:?}");
        let holding = conditions(&ring, reader, slip);
        match holding.iter().filter(|holds| **holds).count() {
            0 => {
                let tail = tail_pos(&ring);
                *orders.entry((tail.cmp(&slip.tail_seen), tail.cmp(&slip.position))).or_insert(0) += 1;
            }
            1 => alone[holding.iter().position(|holds| *holds).unwrap()] += 1,
            _ => {}
        }
    }
    assert!((0..6).all(|condition| (alone[condition] >= 100) == (condition != 1)), "{alone:?}");
    assert!(orders.len() == 9 && orders.values().all(|count| *count >= 100), "{orders:?}");
    // Where read_pos is above write_pos, the slip's position is below read_pos or its end above write_pos.
    assert_eq!(alone[1], 0);
}

/// Before anything of the record or the slip.
#[test]
fn a_ring_that_is_none_is_refused_first() {
    let sound = with_positions(256, 300, 500);
    let spoilt = |at: usize, value: u64| {
        let mut ring = sound.clone();
        set_word(&mut ring, at, value);
        ring
    };
    let longer = [&sound[..], &[0]].concat();
    let short = sound[..PAGES + 255].to_vec();
    let rings = [short, spoilt(0, 0), spoilt(8, 2), spoilt(32, 0), longer, spoilt(72, 501)];
    let reader = Reader { read_pos: 300, last: 4, handed: 4, generation: 1 };
    let slip = Slip { position: 300, size: 32, sequence: 5, tail_seen: 300 };
    for (ring, number) in rings.iter().zip(1..) {
        for (reader, slip) in [(reader, slip), (reader, Slip::default()), (Reader { handed: MAX, ..reader }, slip)] {
            assert_eq!(confirm(ring, reader, slip).unwrap_err().number(), number);
            assert_eq!(copy(ring, reader, &mut []).unwrap_err().number(), number);
        }
    }
}
