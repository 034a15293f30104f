//! A fresh ring with one writer, and readers that are attached at any moment. Emissions come anywhere, also between a copy and
//! its confirm; the consumer's page may change before every call.

use super::*;
use crate::ring::chance::Chance;
use std::collections::BTreeMap;

const READERS: usize = 3;

struct Watched {
    reader: Reader,
    /// The copy that isn't confirmed yet, and its bytes.
    open: Option<(Slip, Vec<u8>)>,
    /// Whether the last confirm answered AGAIN and no copy has come since.
    sent_back: bool,
    /// All that was confirmed since the reader was attached.
    confirmed: Vec<u64>,
}

struct Life {
    ring: Vec<u8>,
    writer: Writer,
    /// Position and bytes of each accepted event, by its sequence.
    accepted: BTreeMap<u64, (u64, Vec<u8>)>,
    watched: Vec<Watched>,
    done: usize,
    again: usize,
}

fn attached(ring: &[u8]) -> Watched {
    Watched { reader: attach(ring).unwrap(), open: None, sent_back: false, confirmed: Vec::new() }
}

impl Life {
    fn fresh(capacity: usize) -> Life {
        let ring = fresh(capacity);
        let watched = (0..READERS).map(|_| attached(&ring)).collect();
        Life { ring, writer: Writer::default(), accepted: BTreeMap::new(), watched, done: 0, again: 0 }
    }

    fn emit(&mut self, chance: &mut Chance) {
        let half = (self.ring.len() - PAGES) / 2;
        let payload: Vec<u8> = (0..chance.below(half)).map(|_| chance.below(256) as u8).collect();
        let payload = &payload[..if chance.below(3) > 0 { payload.len() / 4 } else { payload.len() }];
        let position = write_pos(&self.ring);
        let (answer, writer) = emit_encoded(&mut self.ring, self.writer, payload);
        self.writer = writer;
        if answer != Emitted::Dropped {
            self.accepted.insert(writer.last, (position, encoded(writer.last, payload)));
        }
    }

    /// The first kept event by the calls' answers: the one that begins at the tail.
    fn oldest(&self) -> Option<u64> {
        let tail = tail_pos(&self.ring);
        self.accepted.iter().find(|(_, (position, _))| *position >= tail).map(|(sequence, _)| *sequence)
    }

    fn copy(&mut self, index: usize) {
        let oldest = self.oldest();
        let watched = &mut self.watched[index];
        let mut output = vec![0; self.ring.len() - PAGES];
        let (answer, after) = copy(&self.ring, watched.reader, &mut output).unwrap();
        let Copied::Event(slip) = answer else {
            assert_eq!((answer, after.read_pos), (Copied::Empty, write_pos(&self.ring)));
            watched.reader = after;
            watched.open = None;
            return;
        };
        assert_eq!(after, watched.reader);
        assert_eq!(slip.tail_seen, tail_pos(&self.ring));
        assert!(slip.tail_seen <= slip.position);
        if watched.sent_back {
            assert_eq!((slip.position, Some(slip.sequence)), (tail_pos(&self.ring), oldest));
        }
        watched.sent_back = false;
        output.truncate(slip.size as usize);
        watched.open = Some((slip, output));
    }

    fn confirm(&mut self, index: usize) {
        let (tail, oldest) = (tail_pos(&self.ring), self.oldest());
        let watched = &mut self.watched[index];
        let Some((slip, bytes)) = watched.open.take() else { return };
        let before = watched.reader;
        let (answer, after) = confirm(&self.ring, before, slip).expect("never refused");
        watched.reader = after;
        let gone = oldest.is_none_or(|oldest| oldest > slip.sequence);
        assert_eq!(slip.position < tail, gone);
        assert_eq!(answer == Confirmed::Again, gone);
        if gone {
            assert_eq!(after, Reader { read_pos: tail, ..before });
            watched.sent_back = true;
            self.again += 1;
            return;
        }
        assert_eq!(self.accepted[&slip.sequence], (slip.position, bytes));
        assert_eq!((after.last, after.handed), (slip.sequence, before.handed + 1));
        assert!(watched.confirmed.last().is_none_or(|last| *last < slip.sequence));
        watched.confirmed.push(slip.sequence);
        self.done += 1;
    }

    fn step(&mut self, chance: &mut Chance) {
        let (at, byte) = (4096 + chance.below(4096), chance.below(256) as u8);
        self.ring[at] = byte;
        let index = chance.below(READERS);
        match chance.below(100) {
            0..=44 => self.emit(chance),
            45..=69 => self.copy(index),
            70..=97 => self.confirm(index),
            _ => self.watched[index] = attached(&self.ring),
        }
    }

    /// What is left in the ring goes to every reader, each event once.
    fn emptied(&mut self, index: usize) {
        self.confirm(index);
        while self.watched[index].reader.read_pos < write_pos(&self.ring) {
            self.copy(index);
            self.confirm(index);
        }
        let kept = inspect(&self.ring).unwrap();
        let reader = self.watched[index].reader;
        assert!(kept.count == 0 || reader.last == kept.last);
        assert_eq!(reader.handed, self.watched[index].confirmed.len() as u64);
    }
}

#[test]
fn a_confirmed_event_is_the_one_emitted_under_its_sequence() {
    let mut chance = Chance(23);
    let (mut done, mut again) = (0, 0);
    for turn in 0..300 {
        let mut life = Life::fresh(256 << (turn % 4));
        for _ in 0..600 {
            life.step(&mut chance);
        }
        (0..READERS).for_each(|index| life.emptied(index));
        done += life.done;
        again += life.again;
    }
    assert!(done >= 10_000 && again >= 1_000, "{done} done, {again} again");
}
