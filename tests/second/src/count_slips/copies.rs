//! What is counted of a copy.

use super::OTHERWISE;
use crate::count::{number, word};
use crate::count_rings::{capacity, data, size, tail, word_at, write};
use crate::ring::Reader;
use crate::script::fields::hex;

const HEADER: u64 = 32;

/// A line of `copy` that was played, with the record as it was before.
pub struct Copy<'a> {
    pub ring: &'a [u8],
    pub reader: Reader,
    pub lent: u64,
    pub answer: &'a [u8],
}

pub fn names() -> Vec<(String, usize)> {
    let mut names: Vec<String> = ["event", "empty", "moved"].map(String::from).to_vec();
    names.extend([1, 2, 3, 4, 5, 6, 13, 14].map(|number| format!("refused {number}")));
    names.extend((1..=7).map(|reason| format!("refused 10 why {reason}")));
    names.extend(["event", "empty", "moved", "refused 10", "refused 14"].map(|answer| format!("{answer}, reader lapped")));
    names.extend(["event, lent its size", "refused 14, lent one byte less"].map(String::from));
    names.extend(["handed", "read_pos", "both"].map(|by| format!("refused 13 by {by}")));
    names.push("event over the data's end".to_string());
    let mut names: Vec<(String, usize)> = names.into_iter().map(|name| (name, 50)).collect();
    names.extend((1..=HEADER).map(|bytes| (split(bytes), 10)));
    names.into_iter().map(|(name, least)| (format!("copy {name}"), least)).collect()
}

fn split(bytes: u64) -> String {
    format!("event, {bytes} of its header before the data's end")
}

impl Copy<'_> {
    pub fn names(&self) -> Vec<String> {
        let mut names = vec![self.kind()];
        match self.kind().as_str() {
            "event" => names.extend(self.event()),
            "refused 13" => names.push(format!("refused 13 by {}", self.absurd())),
            "refused 14" if self.lent + 1 == self.size() => names.push("refused 14, lent one byte less".to_string()),
            _ => {}
        }
        if !self.as_expected() {
            names.push(OTHERWISE.to_string());
        }
        if self.looks_below_the_tail() && self.reader.read_pos < tail(self.ring) {
            names.push(format!("{}, reader lapped", self.short_kind()));
        }
        names.into_iter().map(|name| format!("copy {name}")).collect()
    }

    /// The answer, with the reason of 10.
    fn kind(&self) -> String {
        match self.short_kind().as_str() {
            "refused 10" => format!("refused 10 why {}", word(self.answer, 5)),
            other => other.to_string(),
        }
    }

    fn short_kind(&self) -> String {
        match word(self.answer, 0).as_str() {
            "refused" => format!("refused {}", word(self.answer, 1)),
            other => other.to_string(),
        }
    }

    /// Behind 13 the place is at the tail for a lapped reader.
    fn looks_below_the_tail(&self) -> bool {
        word(self.answer, 0) != "refused" || [10, 14].contains(&number(self.answer, 1))
    }

    fn place(&self) -> u64 {
        self.reader.read_pos.max(tail(self.ring))
    }

    fn size(&self) -> u64 {
        size(&data(self.ring, self.place(), HEADER))
    }

    /// By the counts' own reading, for what isn't refused.
    fn as_expected(&self) -> bool {
        match self.short_kind().as_str() {
            "event" => self.answer == self.told_with_event().as_bytes(),
            "empty" | "moved" => self.place() == write(self.ring) && self.answer == self.told_at_the_end().as_bytes(),
            _ => true,
        }
    }

    /// The record stays.
    fn told_with_event(&self) -> String {
        let (event, size) = (data(self.ring, self.place(), self.size()), self.size());
        let slip = format!("{} {size} {} {}", self.place(), word_at(&event, 8), tail(self.ring));
        format!("event {size} bytes {} slip {slip}{}", hex(&event), self.record_at(self.reader.read_pos))
    }

    /// The record has come to the end.
    fn told_at_the_end(&self) -> String {
        let end = if self.reader.generation == word_at(self.ring, 32) { "empty" } else { "moved" };
        format!("{end}{}", self.record_at(self.place()))
    }

    fn record_at(&self, read_pos: u64) -> String {
        let Reader { last, handed, generation, .. } = self.reader;
        format!(" reader {read_pos} {last} {handed} {generation}")
    }

    fn event(&self) -> Vec<String> {
        let before_end = capacity(self.ring) - self.place() % capacity(self.ring);
        let (over, size) = (before_end < self.size(), self.size());
        let rows = [
            (self.lent == size, "event, lent its size".to_string()),
            (over, "event over the data's end".to_string()),
            (over && before_end <= HEADER, split(before_end)),
        ];
        rows.into_iter().filter(|(holds, _)| *holds).map(|(_, name)| name).collect()
    }

    fn absurd(&self) -> &str {
        match (self.reader.handed > self.reader.last, self.reader.read_pos > write(self.ring)) {
            (true, true) => "both",
            (true, false) => "handed",
            _ => "read_pos",
        }
    }
}
