//! What is counted of a confirm.

use super::conditions::{holding, without_ring, CONDITIONS, END, POSITION, READ_POS, SEQUENCE, SIZE};
use super::watched::{Origin, Use};
use super::OTHERWISE;
use crate::count::word;
use crate::count_rings::{capacity, tail, word_at, write};
use crate::ring::{Reader, Slip};
use std::cmp::Ordering;

const ANSWERED: [&str; 2] = ["done", "again"];
const SIDES: [&str; 3] = ["below", "at", "above"];
const CAPACITIES: [u64; 8] = [256, 512, 1024, 2048, 4096, 8192, 16_384, 32_768];

/// The numbers with which one condition alone holds.
const NUMBERS: [&str; 10] = [
    "position one below read_pos",
    "size 31",
    "size 0",
    "end one above write_pos",
    "end past 2^64, the rest at most write_pos",
    "position 2^64 - 1",
    "position above write_pos",
    "sequence equal to last",
    "sequence between 0 and last",
    "sequence 0",
];

/// Of slips that a copy handed out, confirmed by its reader on its ring.
const PASSED: [&str; 7] = [
    "done, tail risen and below the event",
    "done, tail risen up to the event",
    "again, tail at the event's end",
    "again, tail behind the event's end",
    "again, all passed that the copy could see",
    "done, copied by a lapped reader",
    "again, copied by a lapped reader",
];

/// A line of `confirm` that was played, with record and slip as they were before.
pub struct Confirm<'a> {
    pub ring: &'a [u8],
    pub reader: Reader,
    pub slip: Slip,
    pub origin: &'a Origin,
    pub used: Use,
    pub answer: &'a [u8],
}

pub fn names() -> Vec<(String, usize)> {
    let mut names: Vec<String> = ANSWERED.map(String::from).to_vec();
    names.extend([1, 2, 3, 4, 5, 6, 13].map(|number| format!("refused {number}")));
    for number in 1..=6 {
        names.extend([true, false].map(|fit| by_page(number, fit)));
    }
    names.extend((0..6).filter(|condition| *condition != READ_POS).map(|condition| by(&[condition])));
    names.extend([POSITION, END].map(|other| by(&[READ_POS.min(other), READ_POS.max(other)])));
    names.push(by(&[0, 1, 2]));
    names.extend(NUMBERS.map(alone));
    names.extend(SIDES.iter().flat_map(|seen| SIDES.map(|place| order(seen, place))));
    names.extend(PASSED.map(String::from));
    names.extend((0..=4).map(|emissions| after("done", emissions)));
    names.extend((1..=4).map(|emissions| after("again", emissions)));
    names.extend(ANSWERED.map(second));
    for whose in ["another reader's", "another ring's", "both another's"] {
        names.extend(["done", "refused 13"].map(|answer| of_another(whose, answer)));
    }
    names.extend(ANSWERED.map(|answer| format!("{answer}, generation differs")));
    names.push("done, event altered since the copy".to_string());
    names.extend(ANSWERED.map(|answer| format!("{answer}, positions above 2^61")));
    names.extend(["done, sequence 2^64 - 1", "done, sequence above 2^63", "again, sequence above 2^63"].map(String::from));
    names.extend(CAPACITIES.iter().flat_map(|capacity| ANSWERED.map(|answer| on(answer, *capacity))));
    names.into_iter().map(|name| (format!("confirm {name}"), 50)).collect()
}

fn by_page(number: u64, fit: bool) -> String {
    format!("refused {number}, {}", if fit { "record and slip fit each other" } else { "13 would be given too" })
}

/// Refusal 13 where exactly these conditions hold; three or more are counted together.
fn by(conditions: &[usize]) -> String {
    match conditions {
        [one] => format!("refused 13 by {} alone", CONDITIONS[*one]),
        [READ_POS, other] | [other, READ_POS] => {
            format!("refused 13 by {} with {} alone", CONDITIONS[READ_POS], CONDITIONS[*other])
        }
        _ => "refused 13 by others together".to_string(),
    }
}

fn alone(number: &str) -> String {
    format!("refused 13 alone by {number}")
}

fn order(seen: &str, place: &str) -> String {
    format!("by hand, tail {seen} the tail seen and {place} the position")
}

fn after(answer: &str, emissions: usize) -> String {
    format!("{answer} after {emissions}{} emissions", if emissions == 4 { " or more" } else { "" })
}

fn second(answer: &str) -> String {
    format!("refused 13, the second after {answer}")
}

fn of_another(whose: &str, answer: &str) -> String {
    format!("{answer}, slip {whose}")
}

fn on(answer: &str, capacity: u64) -> String {
    format!("{answer}, capacity {capacity}")
}

impl Confirm<'_> {
    pub fn names(&self) -> Vec<String> {
        let kind = self.kind();
        let mut names = vec![kind.clone()];
        names.extend(self.slip_of_another(&kind));
        if !self.as_expected() {
            names.push(OTHERWISE.to_string());
        }
        match kind.as_str() {
            "done" | "again" => names.extend(self.carried_out(&kind)),
            "refused 13" => names.extend(self.refused()),
            page => {
                let number = page.trim_start_matches("refused ").parse().unwrap();
                names.push(by_page(number, without_ring(self.reader, self.slip).is_empty()));
            }
        }
        names.into_iter().map(|name| format!("confirm {name}")).collect()
    }

    fn kind(&self) -> String {
        match word(self.answer, 0).as_str() {
            "refused" => format!("refused {}", word(self.answer, 1)),
            other => other.to_string(),
        }
    }

    /// By the counts' own reading, where refusals 1 to 6 aren't given.
    fn as_expected(&self) -> bool {
        let kind = self.kind();
        if (1..=6).any(|number| kind == format!("refused {number}")) {
            return true;
        }
        let Reader { read_pos, last, handed, generation } = self.reader;
        let (tail, end) = (tail(self.ring), self.slip.position.wrapping_add(self.slip.size));
        let expected = if !holding(self.ring, self.reader, self.slip).is_empty() {
            format!("refused 13 reader {read_pos} {last} {handed} {generation}")
        } else if self.slip.tail_seen.max(self.slip.position) < tail {
            format!("again reader {tail} {last} {handed} {generation}")
        } else {
            format!("done reader {end} {} {} {generation}", self.slip.sequence, handed + 1)
        };
        self.answer == expected.as_bytes()
    }

    fn refused(&self) -> Vec<String> {
        let holding = holding(self.ring, self.reader, self.slip);
        let mut names = vec![by(&holding)];
        if let [one] = holding[..] {
            names.extend(self.numbers(one));
        }
        if let (Origin::Copied(copied), true) = (self.origin, self.used == Use::Own) {
            names.extend(copied.confirmed.map(second));
        }
        names
    }

    fn numbers(&self, condition: usize) -> Vec<String> {
        let (Slip { position, size, sequence, .. }, write) = (self.slip, write(self.ring));
        let holds = [
            condition == POSITION && position + 1 == self.reader.read_pos,
            condition == SIZE && size == 31,
            condition == SIZE && size == 0,
            condition == END && position.checked_add(size) == Some(write + 1),
            condition == END && position.checked_add(size).is_none() && position.wrapping_add(size) <= write,
            condition == END && position == u64::MAX,
            condition == END && position > write,
            condition == SEQUENCE && sequence == self.reader.last,
            condition == SEQUENCE && sequence < self.reader.last && sequence > 0,
            condition == SEQUENCE && sequence == 0,
        ];
        NUMBERS.into_iter().zip(holds).filter(|(_, holds)| *holds).map(|(number, _)| alone(number)).collect()
    }

    fn slip_of_another(&self, kind: &str) -> Option<String> {
        let whose = match self.used {
            Use::OtherReader => "another reader's",
            Use::OtherRing => "another ring's",
            Use::BothOther => "both another's",
            Use::Own => return None,
        };
        ["done", "refused 13"].contains(&kind).then(|| of_another(whose, kind))
    }

    fn carried_out(&self, kind: &str) -> Vec<String> {
        let mut names = vec![on(kind, capacity(self.ring))];
        if self.reader.generation != word_at(self.ring, 32) {
            names.push(format!("{kind}, generation differs"));
        }
        if tail(self.ring) > 1 << 61 {
            names.push(format!("{kind}, positions above 2^61"));
        }
        if self.slip.sequence > 1 << 63 {
            names.push(format!("{kind}, sequence above 2^63"));
        }
        if self.slip.sequence == u64::MAX && kind == "done" {
            names.push("done, sequence 2^64 - 1".to_string());
        }
        match self.origin {
            Origin::Hand => names.push(self.order()),
            Origin::Copied(_) => names.extend(self.since_the_copy(kind)),
        }
        names
    }

    fn order(&self) -> String {
        let side = |other: u64| match tail(self.ring).cmp(&other) {
            Ordering::Less => "below",
            Ordering::Equal => "at",
            Ordering::Greater => "above",
        };
        order(side(self.slip.tail_seen), side(self.slip.position))
    }

    /// Only where the slip is the reader's own, of this ring, and nothing but calls has changed the ring since.
    fn since_the_copy(&self, kind: &str) -> Vec<String> {
        let Origin::Copied(copied) = self.origin else { return Vec::new() };
        if self.used != Use::Own {
            return Vec::new();
        }
        let mut names = Vec::new();
        if kind == "done" && copied.altered(self.ring, self.slip) {
            names.push("done, event altered since the copy".to_string());
        }
        if copied.by_hands {
            return names;
        }
        names.push(after(kind, copied.emissions.min(4)));
        let Slip { position, size, tail_seen, .. } = self.slip;
        let tail = tail(self.ring);
        let holds = [
            kind == "done" && tail > tail_seen && tail < position,
            kind == "done" && tail > tail_seen && tail == position,
            kind == "again" && tail == position + size,
            kind == "again" && tail > position + size,
            kind == "again" && tail >= copied.write_pos,
            kind == "done" && copied.lapped,
            kind == "again" && copied.lapped,
        ];
        names.extend(PASSED.into_iter().zip(holds).filter(|(_, holds)| *holds).map(|(name, _)| name.to_string()));
        names
    }
}
