//! A script being written. Each line is played at once, so that the next may depend on its answer.

use super::random::Random;
use crate::script::fields::hex;
use crate::script::Machine;

pub struct Pen {
    pub machine: Machine,
    pub random: Random,
    pub script: Vec<u8>,
}

impl Pen {
    pub fn new(seed: u64) -> Pen {
        Pen { machine: Machine::new(), random: Random::new(seed), script: Vec::new() }
    }

    pub fn say(&mut self, line: impl AsRef<[u8]>) -> String {
        let line = line.as_ref();
        self.script.extend_from_slice(line);
        self.script.push(b'\n');
        self.machine.play(line)
    }

    pub fn put(&mut self, buffer: usize, at: usize, bytes: &[u8]) {
        self.say(format!("put {buffer} {at} {}", hex(bytes)));
    }

    pub fn put_word(&mut self, buffer: usize, at: usize, value: u64) {
        self.put(buffer, at, &value.to_le_bytes());
    }

    pub fn fresh(&mut self, buffer: usize, capacity: u64, cpu_id: u64) {
        self.say(format!("size {buffer} {}", 8192 + capacity));
        self.say(format!("create {buffer} {cpu_id}"));
    }

    pub fn writer(&mut self, writer: usize, last: u64, dropped: u64, overwritten: u64) {
        self.say(format!("writer {writer} {last} {dropped} {overwritten}"));
    }

    pub fn reader(&mut self, reader: usize, read_pos: u64, last: u64, handed: u64, generation: u64) {
        self.say(format!("reader {reader} {read_pos} {last} {handed} {generation}"));
    }

    /// Short payloads are random bytes; long ones zeros, which take little room in a script.
    pub fn emit(&mut self, buffer: usize, writer: usize, payload: u64) -> String {
        if payload > 160 {
            self.emit_zeros(buffer, writer, payload)
        } else {
            self.emit_noise(buffer, writer, payload)
        }
    }

    pub fn emit_zeros(&mut self, buffer: usize, writer: usize, payload: u64) -> String {
        let stamp = self.stamp();
        self.say(format!("emitlen {buffer} {writer} {stamp} {payload}"))
    }

    pub fn emit_noise(&mut self, buffer: usize, writer: usize, payload: u64) -> String {
        let stamp = self.stamp();
        let bytes = hex(&self.random.bytes(payload));
        self.say(format!("emit {buffer} {writer} {stamp} {bytes}"))
    }

    /// Time, type and class.
    fn stamp(&mut self) -> String {
        let time = self.random.next() >> self.random.below(64);
        let event_type = self.random.next() as u32 >> self.random.below(32);
        let class = self.random.next() as u8;
        format!("{time} {event_type} {class}")
    }

    pub fn read(&mut self, buffer: usize, reader: usize, lent: u64) -> String {
        self.say(format!("read {buffer} {reader} {lent}"))
    }

    pub fn slip(&mut self, slip: usize, position: u64, size: u64, sequence: u64, tail_seen: u64) {
        self.say(format!("slip {slip} {position} {size} {sequence} {tail_seen}"));
    }

    pub fn copy(&mut self, buffer: usize, reader: usize, slip: usize, lent: u64) -> String {
        self.say(format!("copy {buffer} {reader} {slip} {lent}"))
    }

    pub fn confirm(&mut self, buffer: usize, reader: usize, slip: usize) -> String {
        self.say(format!("confirm {buffer} {reader} {slip}"))
    }

    pub fn record(&mut self, buffer: usize, placed: u64, lent: u64) -> String {
        self.say(format!("record {buffer} {placed} {lent}"))
    }

    pub fn verify(&mut self, ring: usize, recording: usize) -> String {
        self.say(format!("verify {ring} {recording}"))
    }

    pub fn sum(&mut self, buffer: usize) {
        self.say(format!("sum {buffer}"));
    }

    pub fn word_at(&self, buffer: usize, at: usize) -> u64 {
        let bytes = self.machine.buffers[buffer].get(at..at + 8);
        bytes.map_or(0, |bytes| u64::from_le_bytes(bytes.try_into().unwrap()))
    }

    pub fn write_pos(&self, buffer: usize) -> u64 {
        self.word_at(buffer, 64)
    }

    pub fn tail_pos(&self, buffer: usize) -> u64 {
        self.word_at(buffer, 72)
    }
}
