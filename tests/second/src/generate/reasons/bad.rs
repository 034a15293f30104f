//! Headers made bad for chosen reasons, numbered as in the request, from 2 to 7. Reason 1 is in write_pos.

use super::calls::every_call;
use super::rings::before;
use crate::generate::pen::Pen;
use crate::generate::sketch::Sketch;

pub const HEADER: u64 = 32;

/// The values that make a field bad at its edges, or by one byte alone; the room is what is left up to write_pos.
pub const HEADER_SIZES: [u16; 6] = [0, 31, 33, 32 + 256, 0x2000, u16::MAX];
pub const SIZES_UNDER_32: [u32; 4] = [0, 1, 16, 31];

/// The page's is 0x0102: each of its bytes altered alone, and both exchanged.
pub const CPU_IDS: [u16; 5] = [0x0103, 0x0182, 0x0002, 0x8102, 0x0201];
pub const SPARES: [(usize, u8); 7] = [(29, 1), (29, 255), (30, 1), (30, 128), (31, 1), (31, 128), (31, 255)];

pub fn sizes_past(room: u64) -> [u32; 5] {
    let room = room as u32;
    [room + 1, room + 2, room + 65_536, 1 << 31, u32::MAX]
}

/// A header of 32 bytes and where it stands.
pub struct Header<'a> {
    pub sketch: &'a Sketch,
    pub index: usize,
    pub bytes: Vec<u8>,
}

impl<'a> Header<'a> {
    /// As it stands in buffer 0.
    pub fn of(pen: &Pen, sketch: &'a Sketch, index: usize) -> Header<'a> {
        let start = sketch.start(index);
        let bytes = (start..start + HEADER).map(|position| pen.machine.buffers[0][sketch.place(position)]).collect();
        Header { sketch, index, bytes }
    }

    pub fn set(&mut self, offset: usize, bytes: &[u8]) {
        self.bytes[offset..offset + bytes.len()].copy_from_slice(bytes);
    }

    /// The same header with more reasons to be bad.
    pub fn spoilt(&self, pen: &mut Pen, reasons: &[u8]) -> Header<'a> {
        let mut header = Header { bytes: self.bytes.clone(), ..*self };
        for reason in reasons {
            header.spoil(pen, *reason);
        }
        header
    }

    /// Makes a reason hold, in one of its ways.
    fn spoil(&mut self, pen: &mut Pen, reason: u8) {
        let room = pen.write_pos(0) - self.sketch.start(self.index);
        match reason {
            2 => self.set(4, &pen.random.pick(&HEADER_SIZES).to_le_bytes()),
            3 => self.set(0, &pen.random.pick(&SIZES_UNDER_32).to_le_bytes()),
            4 => self.set(0, &pen.random.pick(&sizes_past(room)).to_le_bytes()),
            5 => self.set(6, &pen.random.pick(&CPU_IDS).to_le_bytes()),
            6 => {
                let (offset, byte) = pen.random.pick(&SPARES);
                self.set(offset, &[byte]);
            }
            _ => self.set(8, &self.not_rising(pen).to_le_bytes()),
        }
    }

    fn not_rising(&self, pen: &mut Pen) -> u64 {
        let before = before(self.sketch, self.index);
        pen.random.pick(&[before, before.saturating_sub(1), 0])
    }

    pub fn put(&self, pen: &mut Pen) {
        self.sketch.put_at(pen, 0, self.sketch.start(self.index), &self.bytes);
    }

    /// Put, met by every call, and as it was again.
    pub fn tried(&self, pen: &mut Pen) {
        let as_it_was = Header::of(pen, self.sketch, self.index);
        self.put(pen);
        every_call(pen, self.sketch.capacity);
        as_it_was.put(pen);
    }
}

/// The header of an event that stands in buffer 0 as it was drawn, with the reasons given and no other.
pub fn with_reasons<'a>(pen: &mut Pen, sketch: &'a Sketch, index: usize, reasons: &[u8]) -> Header<'a> {
    Header::of(pen, sketch, index).spoilt(pen, reasons)
}
