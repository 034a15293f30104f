//! Long console lives: one writer, four readers of unequal haste, swaps to other capacities.

use super::pen::Pen;

const CAPACITIES: [u64; 12] = [256, 256, 256, 512, 512, 512, 1024, 1024, 2048, 256, 512, 4096];

struct Life<'a> {
    pen: &'a mut Pen,
    capacity: u64,
    buffer: usize,
    writer: usize,
    /// The buffer that each reader still reads from.
    place: [usize; 4],
}

pub fn write(pen: &mut Pen) {
    for writer in 0..4 {
        one_life(pen, CAPACITIES[writer * 3], writer, 900);
    }
    one_life(pen, 8192, 0, 150);
    one_life(pen, 16_384, 1, 150);
    one_life(pen, 32_768, 2, 150);
}

fn one_life(pen: &mut Pen, capacity: u64, writer: usize, steps: usize) {
    let buffer = pen.random.below(4) as usize;
    let cpu_id = pen.random.pick(&[0, 1, 3, 255, 256, 4660, 65_535]);
    pen.fresh(buffer, capacity, cpu_id);
    pen.writer(writer, 0, 0, 0);
    let mut life = Life { pen, capacity, buffer, writer, place: [buffer; 4] };
    for reader in 0..4 {
        life.attach(reader);
    }
    for _ in 0..steps {
        life.step();
    }
    for reader in 0..4 {
        life.drain(reader);
    }
}

impl Life<'_> {
    fn step(&mut self) {
        let reader = self.pen.random.below(4) as usize;
        // Reader 3 is hasty, reader 0 is lapped again and again.
        let hasty = reader.max(self.pen.random.below(4) as usize);
        match self.pen.random.below(200) {
            0..=99 => self.emit(),
            100..=127 => self.read(hasty),
            128..=129 => self.drain(reader),
            130..=139 => self.call("inspect"),
            140..=151 => self.ask_to_be_woken(),
            152..=153 => self.near_the_counters_end(),
            154..=183 => self.call("sum"),
            184..=190 => drop(self.pen.say("outsum")),
            191..=194 => self.swap(),
            195 => self.attach(reader),
            // Without having emptied the old ring.
            196 => self.follow(reader),
            197..=198 => self.glance(),
            _ => self.scribble(),
        }
    }

    fn call(&mut self, word: &str) {
        self.pen.say(format!("{word} {}", self.buffer));
    }

    fn emit(&mut self) {
        let largest = self.capacity / 2 - 32;
        let payload = match self.pen.random.below(100) {
            0..=59 => self.pen.random.below(49),
            60..=79 => self.pen.random.below(largest + 1),
            80..=86 => largest,
            87..=93 => largest + 1,
            94..=97 => 0,
            _ => self.pen.random.pick(&[largest + 2, self.capacity - 32, self.capacity, 40_960]).min(40_960),
        };
        self.pen.emit(self.buffer, self.writer, payload);
    }

    fn read(&mut self, reader: usize) {
        let lent = if self.pen.random.one_in(8) { self.pen.random.below(160) } else { 40_960 };
        let answer = self.pen.read(self.place[reader], reader, lent);
        self.go_on(reader, &answer, lent);
    }

    fn drain(&mut self, reader: usize) {
        let mut answer = "event".to_string();
        while answer.starts_with("event") {
            answer = self.pen.read(self.place[reader], reader, 40_960);
        }
        self.go_on(reader, &answer, 40_960);
    }

    /// A refusal though the output buffer was long enough: another swap has used the buffer that a slow reader still held.
    fn go_on(&mut self, reader: usize, answer: &str, lent: u64) {
        if answer.starts_with("moved") {
            self.follow(reader);
        } else if answer.starts_with("refused") && lent == 40_960 {
            self.attach(reader);
        }
    }

    fn follow(&mut self, reader: usize) {
        let answer = self.pen.say(format!("follow {} {reader}", self.buffer));
        if answer.starts_with("done") {
            self.place[reader] = self.buffer;
        }
    }

    fn attach(&mut self, reader: usize) {
        self.pen.say(format!("attach {} {reader}", self.buffer));
        self.place[reader] = self.buffer;
    }

    fn ask_to_be_woken(&mut self) {
        let flag = self.pen.random.pick(&[0, 1, 1, 1, 2, 255]);
        self.pen.put(self.buffer, 4096, &[flag]);
    }

    fn near_the_counters_end(&mut self) {
        let counter: u32 = self.pen.random.pick(&[u32::MAX, u32::MAX - 1, 0xFF, 0xFFFF, 0xFF_FFFF, 0x7FFF_FFFF]);
        self.pen.put(self.buffer, 128, &counter.to_le_bytes());
    }

    fn glance(&mut self) {
        let at = 8192 + self.pen.random.below(self.capacity - 64);
        self.pen.say(format!("get {} 32 100", self.buffer));
        self.pen.say(format!("get {} {at} 64", self.buffer));
    }

    /// A consumer may write anything in bytes 4097 to 8191.
    fn scribble(&mut self) {
        let at = 4097 + self.pen.random.below(4095 - 8) as usize;
        let bytes = self.pen.random.bytes(8);
        self.pen.put(self.buffer, at, &bytes);
    }

    fn swap(&mut self) {
        let to = (self.buffer + 1 + self.pen.random.below(3) as usize) % 4;
        let capacity = self.pen.random.pick(&CAPACITIES);
        let too_much = u64::from(self.pen.random.one_in(10));
        self.pen.say(format!("size {to} {}", 8192 + capacity + too_much));
        // The new buffer isn't empty: a swap that leaves a byte of it standing is seen in its sum.
        let noise = self.pen.random.bytes(16);
        self.pen.put(to, 8200, &noise);
        self.pen.put(to, 4095, &[7, 1, 7]);
        let answer = self.pen.say(format!("swap {} {to} {}", self.buffer, self.writer));
        self.pen.sum(self.buffer);
        self.pen.sum(to);
        if !answer.starts_with("refused") {
            self.buffer = to;
            self.capacity = capacity;
        }
    }
}
