//! A ring in one buffer and a recording in another.

use crate::generate::pen::Pen;
use crate::generate::sketch::Sketch;
use crate::ring::record;
use crate::script::LONGEST_BUFFER;
use std::ops::Range;

/// So few bytes between two that differ are put with them: a line of their own would take more room.
const NEAR: usize = 8;

#[derive(Clone, Copy)]
pub struct Beside {
    pub ring: usize,
    pub recording: usize,
}

impl Beside {
    /// By turns in each of the twelve orders of two buffers.
    pub fn of_turn(turn: usize) -> Beside {
        let ring = turn % 4;
        Beside { ring, recording: (ring + 1 + turn / 4 % 3) % 4 }
    }

    /// The first buffer that is neither.
    pub fn third(self) -> usize {
        (0..4).find(|buffer| *buffer != self.ring && *buffer != self.recording).unwrap()
    }

    /// Draws the ring and answers its own recording.
    pub fn drawn(self, pen: &mut Pen, sketch: &Sketch) -> Vec<u8> {
        sketch.draw(pen, self.ring);
        self.own(pen)
    }

    /// What `record` gives of the ring as it stands, whole.
    pub fn own(self, pen: &Pen) -> Vec<u8> {
        let mut recording = vec![0; LONGEST_BUFFER];
        let length = record(&pen.machine.buffers[self.ring], 0, &mut recording).unwrap();
        recording.truncate(length);
        recording
    }

    /// Lays a recording beside the ring and has it verified.
    pub fn ask(self, pen: &mut Pen, recording: &[u8]) {
        lay(pen, self.recording, recording);
        self.verify(pen);
    }

    /// One byte of the recording altered.
    pub fn ask_with_byte(self, pen: &mut Pen, recording: &[u8], place: usize, change: u8) {
        self.ask(pen, &with_byte(recording, place, change));
    }

    /// Now and then the sums follow, which show that nothing was written.
    pub fn verify(self, pen: &mut Pen) {
        pen.verify(self.ring, self.recording);
        if pen.random.one_in(16) {
            pen.sum(self.ring);
            pen.sum(self.recording);
            pen.say("outsum");
        }
    }
}

pub fn with_byte(recording: &[u8], place: usize, change: u8) -> Vec<u8> {
    let mut altered = recording.to_vec();
    altered[place] ^= change;
    altered
}

/// Makes a buffer these bytes. What it holds already isn't put again.
pub fn lay(pen: &mut Pen, buffer: usize, bytes: &[u8]) {
    if pen.machine.buffers[buffer].len() != bytes.len() {
        pen.say(format!("size {buffer} {}", bytes.len()));
    }
    for stretch in differing(&pen.machine.buffers[buffer], bytes) {
        pen.put(buffer, stretch.start, &bytes[stretch]);
    }
}

/// The stretches in which two of one length differ.
fn differing(one: &[u8], other: &[u8]) -> Vec<Range<usize>> {
    let mut stretches: Vec<Range<usize>> = Vec::new();
    for place in (0..one.len()).filter(|place| one[*place] != other[*place]) {
        match stretches.last_mut() {
            Some(last) if place - last.end < NEAR => last.end = place + 1,
            _ => stretches.push(place..place + 1),
        }
    }
    stretches
}
