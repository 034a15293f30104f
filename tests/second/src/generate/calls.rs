//! Every call on one ring, the ones that change it last.

use super::pen::Pen;

/// Two reader's records with the same content, so that reading doesn't disturb what following is given.
pub const READS: usize = 0;
pub const FOLLOWS: usize = 1;
const ATTACHES: usize = 2;

pub struct Calls {
    pub buffer: usize,
    pub to: usize,
    pub writer: usize,
    pub payload: u64,
    pub lent: u64,
}

impl Default for Calls {
    fn default() -> Calls {
        Calls { buffer: 0, to: 1, writer: 0, payload: 40, lent: 40_960 }
    }
}

pub fn set_readers(pen: &mut Pen, read_pos: u64, last: u64, handed: u64, generation: u64) {
    pen.reader(READS, read_pos, last, handed, generation);
    pen.reader(FOLLOWS, read_pos, last, handed, generation);
}

impl Calls {
    pub fn every(&self, pen: &mut Pen) {
        self.looks(pen);
        pen.emit(self.buffer, self.writer, self.payload);
        pen.say(format!("swap {} {} {}", self.buffer, self.to, self.writer));
        pen.sum(self.buffer);
        pen.sum(self.to);
        pen.say("outsum");
    }

    /// Those that leave the ring as it is.
    pub fn looks(&self, pen: &mut Pen) {
        for turn in 0..4 {
            self.one(pen, turn);
        }
    }

    /// By turns; answers whether the ring may have changed.
    pub fn one(&self, pen: &mut Pen, turn: usize) -> bool {
        let Calls { buffer, to, writer, payload, lent } = *self;
        let answer = match turn % 6 {
            0 => pen.say(format!("inspect {buffer}")),
            1 => pen.read(buffer, READS, lent),
            2 => pen.say(format!("follow {buffer} {FOLLOWS}")),
            3 => pen.say(format!("attach {buffer} {ATTACHES}")),
            4 => pen.emit(buffer, writer, payload),
            _ => pen.say(format!("swap {buffer} {to} {writer}")),
        };
        turn % 6 >= 4 && !answer.starts_with("refused")
    }
}
