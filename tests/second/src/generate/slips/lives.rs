//! One writer, and four readers that are attached at any moment, each with a slip of its own. Whatever comes next comes between a
//! copy and its confirm: emissions, other readers, a swap, the reader's own other calls.

use super::rings::{emptied, ALL, HEADER};
use crate::generate::pen::Pen;

const CAPACITIES: [u64; 8] = [256, 256, 512, 256, 1024, 512, 2048, 4096];

struct Life<'a> {
    pen: &'a mut Pen,
    capacity: u64,
    buffer: usize,
    /// The buffer that each reader still reads from.
    place: [usize; 4],
}

pub fn write(pen: &mut Pen) {
    for capacity in CAPACITIES {
        one_life(pen, capacity);
    }
}

fn one_life(pen: &mut Pen, capacity: u64) {
    let buffer = pen.random.below(4) as usize;
    pen.fresh(buffer, capacity, 3);
    pen.writer(0, 0, 0, 0);
    let mut life = Life { pen, capacity, buffer, place: [buffer; 4] };
    for reader in 0..4 {
        life.attach(reader);
    }
    for _ in 0..330 {
        life.step();
    }
    for reader in 0..4 {
        life.confirm(reader);
        emptied(life.pen, life.place[reader], reader);
    }
}

impl Life<'_> {
    fn step(&mut self) {
        let reader = self.pen.random.below(4) as usize;
        match self.pen.random.below(200) {
            0..=79 => self.emit(),
            80..=123 => self.copy(reader),
            124..=163 => self.confirm(reader),
            164..=171 => self.between(reader),
            172..=176 => drop(self.pen.read(self.place[reader], reader, ALL)),
            177..=180 => self.attach(reader),
            181..=183 => drop(self.pen.say(format!("inspect {}", self.buffer))),
            184..=190 => self.pen.sum(self.buffer),
            191..=195 => drop(self.pen.say("outsum")),
            196 => self.swap(),
            _ => self.scribble(),
        }
    }

    fn emit(&mut self) {
        let largest = self.capacity / 2 - HEADER;
        let payload = match self.pen.random.below(20) {
            0..=9 => self.pen.random.below(24),
            10..=15 => self.pen.random.below(largest / 2 + 1),
            16..=17 => self.pen.random.below(largest + 1),
            18 => largest,
            _ => largest + 1,
        };
        self.pen.emit(self.buffer, 0, payload);
    }

    fn copy(&mut self, reader: usize) {
        let lent = if self.pen.random.one_in(8) { self.pen.random.below(80) } else { ALL };
        let answer = self.pen.copy(self.place[reader], reader, reader, lent);
        if answer.starts_with("moved") {
            self.follow(reader);
        } else if answer.starts_with("refused") && lent == ALL {
            // A swap has used the buffer that a slow reader still held.
            self.attach(reader);
        }
    }

    /// After AGAIN the reader starts over; now and then a confirm is made twice.
    fn confirm(&mut self, reader: usize) {
        let answer = self.pen.confirm(self.place[reader], reader, reader);
        if answer.starts_with("again") {
            self.pen.say("outsum");
            self.copy(reader);
        }
        if self.pen.random.one_in(12) {
            self.pen.confirm(self.place[reader], reader, reader);
        }
    }

    /// A copy, any number of emissions, and its confirm.
    fn between(&mut self, reader: usize) {
        self.copy(reader);
        for _ in 0..self.pen.random.below(8) {
            self.emit();
        }
        self.confirm(reader);
    }

    fn attach(&mut self, reader: usize) {
        self.pen.say(format!("attach {} {reader}", self.buffer));
        self.place[reader] = self.buffer;
    }

    fn follow(&mut self, reader: usize) {
        let answer = self.pen.say(format!("follow {} {reader}", self.buffer));
        if answer.starts_with("done") {
            self.place[reader] = self.buffer;
        }
    }

    fn swap(&mut self) {
        let to = (self.buffer + 1 + self.pen.random.below(3) as usize) % 4;
        let capacity = self.pen.random.pick(&[256, 512, 1024]);
        self.pen.say(format!("size {to} {}", 8192 + capacity));
        let answer = self.pen.say(format!("swap {} {to} 0", self.buffer));
        if !answer.starts_with("refused") {
            self.buffer = to;
            self.capacity = capacity;
        }
    }

    /// A consumer may write anything in bytes 4096 to 8191.
    fn scribble(&mut self) {
        let at = 4096 + self.pen.random.below(4096 - 4) as usize;
        let bytes = self.pen.random.bytes(4);
        self.pen.put(self.buffer, at, &bytes);
    }
}
