//! A recording put together event by event, for files that no ring here gives.

use crate::generate::pen::Pen;
use crate::generate::sketch::header;

const OPENING: usize = 8;

#[derive(Clone)]
pub struct Recording {
    pub cpu_id: u16,
    /// Size and sequence of each event.
    pub events: Vec<(u64, u64)>,
}

impl Recording {
    /// Events numbered from 1.
    pub fn new(cpu_id: u16, sizes: &[u64]) -> Recording {
        Recording { cpu_id, events: sizes.iter().zip(1..).map(|(size, sequence)| (*size, sequence)).collect() }
    }

    /// Up to so many small events, with sequences that leave some out.
    pub fn random(pen: &mut Pen, most_events: u64) -> Recording {
        let mut sequence = 0;
        let mut recording = Recording { cpu_id: pen.random.next() as u16, events: Vec::new() };
        for _ in 0..pen.random.below(most_events + 1) {
            sequence += pen.random.pick(&[1, 1, 1, 2, 255, 256, 1 << 40]);
            let payload = pen.random.pick(&[0, 0, 1, 2, 5, 8, 13, 30]);
            recording.events.push((32 + payload, sequence));
        }
        recording
    }

    /// Where an event of a given index begins, or the closing if the index is the number of events.
    pub fn start(&self, index: usize) -> usize {
        OPENING + self.events[..index].iter().map(|(size, _)| *size as usize).sum::<usize>()
    }

    pub fn closing_start(&self) -> usize {
        self.start(self.events.len())
    }

    /// The sequence before an event of a given index.
    pub fn before(&self, index: usize) -> u64 {
        index.checked_sub(1).map_or(0, |before| self.events[before].1)
    }

    pub fn opening(&self) -> Vec<u8> {
        let [low, high] = self.cpu_id.to_le_bytes();
        vec![b'S', b'P', b'L', 1, 0, low, high, 0]
    }

    pub fn closing(&self) -> Vec<u8> {
        let handed = self.events.len() as u64;
        let missed = self.before(self.events.len()) - handed;
        [[0; 8], handed.to_le_bytes(), missed.to_le_bytes()].concat()
    }

    pub fn header(&self, pen: &mut Pen, index: usize) -> Vec<u8> {
        let (size, sequence) = self.events[index];
        header(pen, self.cpu_id, size, sequence)
    }

    /// With random payloads.
    pub fn bytes(&self, pen: &mut Pen) -> Vec<u8> {
        self.bytes_with(pen, |pen, count| pen.random.bytes(count))
    }

    pub fn bytes_with(&self, pen: &mut Pen, payload: impl Fn(&mut Pen, u64) -> Vec<u8>) -> Vec<u8> {
        let mut bytes = self.opening();
        for index in 0..self.events.len() {
            bytes.extend_from_slice(&self.header(pen, index));
            bytes.extend_from_slice(&payload(pen, self.events[index].0 - 32));
        }
        bytes.extend_from_slice(&self.closing());
        bytes
    }
}
