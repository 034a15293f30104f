//! A script being played, with where each slip came from and what happened since.

use super::confirms::Confirm;
use super::copies::Copy;
use crate::count::{number, word};
use crate::count_rings::{data, ring_of, tail, write};
use crate::ring::{Reader, Slip};
use crate::script::Machine;
use crate::stored::lines;

/// A slip is made by hand until a copy writes it; at a script's start it is all 0.
#[derive(Default)]
pub enum Origin {
    #[default]
    Hand,
    Copied(Copied),
}

/// How it was with the copy, and since.
pub struct Copied {
    buffer: usize,
    reader: usize,
    bytes: Vec<u8>,
    pub write_pos: u64,
    pub lapped: bool,
    /// Accepted ones on this ring.
    pub emissions: usize,
    /// Whether more than calls has changed the ring.
    pub by_hands: bool,
    /// The answer of the first confirm by the slip's own reader.
    pub confirmed: Option<&'static str>,
}

/// Whether a slip is confirmed by the reader that copied it and on the same ring. One made by hand is everybody's own.
#[derive(Clone, Copy, PartialEq, Eq)]
pub enum Use {
    Own,
    OtherReader,
    OtherRing,
    BothOther,
}

pub struct Watched {
    machine: Machine,
    origins: [Origin; 4],
    /// Of the line before, if the output buffer must have stayed with it.
    stayed: Option<&'static str>,
}

pub const STAYED: [&str; 2] = ["outsum after again", "outsum after a refused copy"];

impl Copied {
    pub fn altered(&self, ring: &[u8], slip: Slip) -> bool {
        data(ring, slip.position, slip.size) != self.bytes
    }
}

impl Watched {
    pub fn new() -> Watched {
        Watched { machine: Machine::new(), origins: Default::default(), stayed: None }
    }

    /// Everything that is counted. A rest that no newline ends is no command, so it isn't played.
    pub fn all(&mut self, script: &[u8]) -> Vec<String> {
        let ended = lines(script).into_iter().filter_map(|line| line.strip_suffix(b"\n"));
        ended.flat_map(|line| self.one(line)).collect()
    }

    fn one(&mut self, line: &[u8]) -> Vec<String> {
        let (readers, slips) = (self.machine.readers, self.machine.slips);
        let answer = self.machine.play(line);
        let stayed = self.stayed.take();
        let index = |field: usize| number(line, field) as usize;
        match word(line, 0).as_str() {
            _ if answer == "unknown" => Vec::new(),
            "outsum" => stayed.map(String::from).into_iter().collect(),
            "copy" => self.copy(line, readers[index(2)], answer.as_bytes()),
            "confirm" => self.confirm(line, readers[index(2)], slips[index(3)], answer.as_bytes()),
            command => {
                self.changed(command, &word(answer.as_bytes(), 0), line);
                Vec::new()
            }
        }
    }

    fn copy(&mut self, line: &[u8], reader: Reader, answer: &[u8]) -> Vec<String> {
        let ring = ring_of(&self.machine, line);
        let index = |field: usize| number(line, field) as usize;
        let kind = word(answer, 0);
        if kind == "event" {
            let Slip { position, size, .. } = self.machine.slips[index(3)];
            self.origins[index(3)] = Origin::Copied(Copied {
                buffer: index(1),
                reader: index(2),
                bytes: data(ring, position, size),
                write_pos: write(ring),
                lapped: reader.read_pos < tail(ring),
                emissions: 0,
                by_hands: false,
                confirmed: None,
            });
        }
        self.stayed = (kind == "refused").then_some(STAYED[1]);
        Copy { ring, reader, lent: number(line, 4), answer }.names()
    }

    fn confirm(&mut self, line: &[u8], reader: Reader, slip: Slip, answer: &[u8]) -> Vec<String> {
        let index = |field: usize| number(line, field) as usize;
        let origin = &self.origins[index(3)];
        let used = used(origin, index(1), index(2));
        let names = Confirm { ring: ring_of(&self.machine, line), reader, slip, origin, used, answer }.names();
        self.confirmed(index(3), used, &word(answer, 0));
        names
    }

    fn confirmed(&mut self, slip: usize, used: Use, kind: &str) {
        let answer = match kind {
            "done" => "done",
            "again" => "again",
            _ => return,
        };
        if let (Origin::Copied(copied), Use::Own) = (&mut self.origins[slip], used) {
            copied.confirmed = copied.confirmed.or(Some(answer));
        }
        self.stayed = (answer == "again").then_some(STAYED[0]);
    }

    /// By the lines that aren't copies or confirms.
    fn changed(&mut self, command: &str, answer: &str, line: &[u8]) {
        let field = |index: usize| number(line, index) as usize;
        match (command, answer) {
            ("slip", _) => self.origins[field(1)] = Origin::Hand,
            ("emit" | "emitlen", "done" | "wake") => self.each_of(field(1), |copied| copied.emissions += 1),
            ("put", "ok") if !(4096..8192).contains(&field(2)) => self.each_of(field(1), |copied| copied.by_hands = true),
            ("size", "ok") | ("create", "done") => self.each_of(field(1), |copied| copied.by_hands = true),
            ("swap", "done" | "wake") => self.each_of(field(2), |copied| copied.by_hands = true),
            _ => {}
        }
    }

    fn each_of(&mut self, buffer: usize, change: impl Fn(&mut Copied)) {
        for origin in &mut self.origins {
            if let Origin::Copied(copied) = origin {
                if copied.buffer == buffer {
                    change(copied);
                }
            }
        }
    }
}

fn used(origin: &Origin, buffer: usize, reader: usize) -> Use {
    let Origin::Copied(copied) = origin else { return Use::Own };
    match (copied.buffer == buffer, copied.reader == reader) {
        (true, true) => Use::Own,
        (true, false) => Use::OtherReader,
        (false, true) => Use::OtherRing,
        (false, false) => Use::BothOther,
    }
}
