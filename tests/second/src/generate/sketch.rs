//! A ring put together byte by byte, for states that calls alone don't reach.

use super::pen::Pen;

#[derive(Clone)]
pub struct Sketch {
    pub capacity: u64,
    pub cpu_id: u16,
    pub generation: u64,
    pub tail_pos: u64,
    /// Size and sequence of each event; all of them fit the capacity.
    pub events: Vec<(u64, u64)>,
}

impl Sketch {
    /// Events numbered from 1.
    pub fn new(capacity: u64, tail_pos: u64, sizes: &[u64]) -> Sketch {
        let events = sizes.iter().zip(1..).map(|(size, sequence)| (*size, sequence)).collect();
        Sketch { capacity, cpu_id: 3, generation: 1, tail_pos, events }
    }

    pub fn live(&self) -> u64 {
        self.events.iter().map(|(size, _)| size).sum()
    }

    pub fn write_pos(&self) -> u64 {
        self.tail_pos + self.live()
    }

    /// Where the event of a given index begins.
    pub fn start(&self, index: usize) -> u64 {
        self.tail_pos + self.events[..index].iter().map(|(size, _)| size).sum::<u64>()
    }

    /// The buffer offset of a position.
    pub fn place(&self, position: u64) -> usize {
        8192 + (position % self.capacity) as usize
    }

    pub fn draw(&self, pen: &mut Pen, buffer: usize) {
        self.draw_in(pen, buffer, 8192 + self.capacity);
    }

    /// In a buffer of any length; a stretch that passes its end is answered `outside` and not put.
    pub fn draw_in(&self, pen: &mut Pen, buffer: usize, length: u64) {
        pen.say(format!("size {buffer} {length}"));
        pen.put(buffer, 0, &self.page_front());
        pen.put(buffer, 64, &[self.write_pos().to_le_bytes(), self.tail_pos.to_le_bytes()].concat());
        let bytes: Vec<u8> = self.events.iter().flat_map(|(size, sequence)| self.event(pen, *size, *sequence)).collect();
        self.put_at(pen, buffer, self.tail_pos, &bytes);
    }

    /// Bytes by position: two stretches if they pass the end of the data region.
    pub fn put_at(&self, pen: &mut Pen, buffer: usize, position: u64, bytes: &[u8]) {
        let before_end = (self.capacity - position % self.capacity) as usize;
        let (front, back) = bytes.split_at(before_end.min(bytes.len()));
        for (place, part) in [(self.place(position), front), (8192, back)] {
            if !part.is_empty() {
                pen.put(buffer, place, part);
            }
        }
    }

    fn page_front(&self) -> Vec<u8> {
        let mut page = b"KMESRING\x01\0\0\0".to_vec();
        page.extend_from_slice(&self.cpu_id.to_le_bytes());
        page.extend_from_slice(&[0, 0]);
        for word in [self.capacity, 8192, self.generation] {
            page.extend_from_slice(&word.to_le_bytes());
        }
        page
    }

    /// Well formed, with random timestamp, type, class and payload.
    pub fn event(&self, pen: &mut Pen, size: u64, sequence: u64) -> Vec<u8> {
        let mut event = header(pen, self.cpu_id, size, sequence);
        event.extend_from_slice(&pen.random.bytes(size - 32));
        event
    }
}

/// The first 32 bytes of an event.
pub fn header(pen: &mut Pen, cpu_id: u16, size: u64, sequence: u64) -> Vec<u8> {
    let mut header = (size as u32).to_le_bytes().to_vec();
    header.extend_from_slice(&32u16.to_le_bytes());
    header.extend_from_slice(&cpu_id.to_le_bytes());
    header.extend_from_slice(&sequence.to_le_bytes());
    header.extend_from_slice(&pen.random.bytes(13));
    header.extend_from_slice(&[0, 0, 0]);
    header
}
