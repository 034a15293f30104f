//! What is counted of one line of `verify`.

use super::places::{self, filtered, Places, ENDS};
use super::recording::{agreed, as_it_stands, OPENING};
use super::OTHERWISE;
use crate::count::{number, word};
use crate::count_rings::{capacity, tail, write};
use crate::ring::{RecordingReader, Report};

const ANSWERS: [&str; 3] = ["same", "differs", "refused"];

/// A recording that only goes on longer, or is only shorter.
const LENGTHS: [&str; 5] = ["shorter by 1", "shorter by more", "longer by 1", "longer by more", "longer by 1,000 or more"];

/// With a difference in a byte that both have.
const TOGETHER: [&str; 4] = ["another difference behind", "shorter too", "longer too", "of one length"];

const RINGS: [&str; 6] = ["no event", "in one stretch", "over the data's end", "full", "missed 0", "missed above 0"];
const CAPACITIES: [u64; 8] = [256, 512, 1024, 2048, 4096, 8192, 16_384, 32_768];

/// How far a recording beside a ring with a bad event agrees with the bytes before that.
const BEFORE_THE_EVENT: [&str; 3] = ["agrees up to the event", "differs before the event", "ends before the event"];

/// A line that was played. The buffers are after the call as they were before it.
pub struct Call<'a> {
    /// Of the ring and of the recording.
    pub buffers: [u64; 2],
    pub ring: &'a [u8],
    pub recording: &'a [u8],
    pub answer: &'a str,
    /// What inspection says of the ring.
    pub inspected: &'a str,
}

pub fn names() -> Vec<String> {
    let mut names: Vec<String> = ANSWERS.map(String::from).to_vec();
    let refusals = (1..=6).map(|number| format!("refused {number}"));
    let reasons = (1..=7).map(|reason| format!("refused 10 why {reason}"));
    for refusal in refusals.chain(reasons) {
        names.extend([true, false].map(|sound| by_itself(&refusal, sound)));
        if refusal.starts_with("refused 10") {
            names.extend(BEFORE_THE_EVENT.map(|how| format!("{refusal}, {how}")));
        }
        names.push(refusal);
    }
    names.extend(places::names().iter().map(|place| at(place)));
    names.extend(LENGTHS.iter().chain(&ENDS).map(|length| only(length)));
    names.extend(TOGETHER.map(in_a_byte));
    names.extend([true, false].map(|sound| by_itself("differs", sound)));
    for answer in &ANSWERS[..2] {
        names.extend(RINGS.map(|ring| format!("{answer}, {ring}")));
        names.extend(CAPACITIES.map(|capacity| format!("{answer}, capacity {capacity}")));
    }
    names.extend((0..2).flat_map(|stretch| (0..8).map(move |rest| stretch_of(stretch, rest))));
    for (ring, recording) in (0..4).flat_map(|ring| (0..4).map(move |recording| (ring, recording))) {
        if ring != recording {
            names.extend(ANSWERS.map(|answer| order(answer, [ring, recording])));
        }
    }
    names
}

fn by_itself(answer: &str, sound: bool) -> String {
    format!("{answer}, recording {} by itself", if sound { "sound" } else { "not sound" })
}

fn at(place: &str) -> String {
    format!("differs at {place}")
}

fn only(length: &str) -> String {
    format!("differs, only {length}")
}

fn in_a_byte(together: &str) -> String {
    format!("differs in a byte, {together}")
}

fn stretch_of(stretch: usize, rest: usize) -> String {
    format!("same, {} stretch of eights and {rest}", ["first", "second"][stretch])
}

fn order(answer: &str, [ring, recording]: [u64; 2]) -> String {
    format!("{answer}, ring in {ring} and recording in {recording}")
}

impl Call<'_> {
    pub fn names(&self) -> Vec<String> {
        let answer = word(self.answer.as_bytes(), 0);
        let mut names = vec![order(&answer, self.buffers)];
        match answer.as_str() {
            "refused" => names.extend(self.refused()),
            _ => names.extend(self.compared(&answer)),
        }
        if !self.as_expected() {
            names.push(OTHERWISE.to_string());
        }
        names.push(answer);
        names
    }

    /// A refusal is inspection's own, place and reason too.
    fn as_expected(&self) -> bool {
        if !self.inspected.starts_with("kept") {
            return self.answer == self.inspected;
        }
        let own = as_it_stands(self.ring);
        let agreed = agreed(&own, self.recording);
        let same = agreed == own.len() && agreed == self.recording.len();
        self.answer == if same { "same".to_string() } else { format!("differs at {agreed}") }
    }

    /// For the reader of recordings, which knows of no ring.
    fn is_sound(&self) -> bool {
        let mut reader = RecordingReader::default();
        let reports = reader.feed(self.recording).unwrap();
        !reports.iter().any(|report| matches!(report, Report::Fault { .. })) && reader.end().is_none()
    }

    fn refused(&self) -> Vec<String> {
        let answer = self.answer.as_bytes();
        let number_10 = word(answer, 1) == "10";
        let refusal =
            if number_10 { format!("refused 10 why {}", word(answer, 5)) } else { format!("refused {}", word(answer, 1)) };
        let mut names = vec![by_itself(&refusal, self.is_sound())];
        if number_10 {
            names.push(format!("{refusal}, {}", self.before_the_event()));
        }
        names.push(refusal);
        names
    }

    fn before_the_event(&self) -> &'static str {
        let place = OPENING + (number(self.answer.as_bytes(), 3) - tail(self.ring)) as usize;
        let agreed = agreed(&as_it_stands(self.ring), self.recording);
        if agreed >= place {
            BEFORE_THE_EVENT[0]
        } else if agreed < self.recording.len() {
            BEFORE_THE_EVENT[1]
        } else {
            BEFORE_THE_EVENT[2]
        }
    }

    fn compared(&self, answer: &str) -> Vec<String> {
        let places = Places::of(self.ring);
        let mut names = self.rings(answer, &places);
        if answer == "differs" {
            names.push(by_itself(answer, self.is_sound()));
            names.extend(self.difference(&places));
        } else if let Some(rests) = places.stretches() {
            names.extend((0..2).map(|stretch| stretch_of(stretch, rests[stretch])));
        }
        names
    }

    fn rings(&self, answer: &str, places: &Places) -> Vec<String> {
        let own = as_it_stands(self.ring);
        let no_missed = own.ends_with(&[0; 8]);
        let holds = [
            places.has_no_event(),
            !places.has_no_event() && !places.is_over_the_end(),
            places.is_over_the_end(),
            write(self.ring) - tail(self.ring) == capacity(self.ring),
            no_missed,
            !no_missed,
        ];
        let mut names = filtered(&RINGS, &holds);
        names.push(format!("capacity {}", capacity(self.ring)));
        names.into_iter().map(|name| format!("{answer}, {name}")).collect()
    }

    /// In a byte that both have, or by the length alone.
    fn difference(&self, places: &Places) -> Vec<String> {
        let own = as_it_stands(self.ring);
        let place = agreed(&own, self.recording);
        if place < own.len().min(self.recording.len()) {
            let mut names: Vec<String> = places.byte(place).iter().map(|part| at(part)).collect();
            names.extend(self.together(&own, place));
            return names;
        }
        let mut names = self.lengths(places.length());
        if self.recording.len() < own.len() {
            names.extend(places.ends(place));
        }
        names.iter().map(|name| only(name)).collect()
    }

    fn together(&self, own: &[u8], place: usize) -> Vec<String> {
        let mut behind = own[place + 1..].iter().zip(&self.recording[place + 1..]);
        let (length, own_length) = (self.recording.len(), own.len());
        let holds = [behind.any(|(own, other)| own != other), length < own_length, length > own_length, length == own_length];
        filtered(&TOGETHER, &holds).iter().map(|together| in_a_byte(together)).collect()
    }

    fn lengths(&self, own_length: usize) -> Vec<String> {
        let length = self.recording.len();
        let holds = [
            length + 1 == own_length,
            length + 1 < own_length,
            length == own_length + 1,
            length > own_length + 1,
            length >= own_length + 1000,
        ];
        filtered(&LENGTHS, &holds)
    }
}
