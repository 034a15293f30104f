//! Which part of a ring's recording a place lies in.

use super::recording::{starts, CLOSING, OPENING};
use crate::count_rings::{capacity, tail, write};

/// Those of the events; a place may have several.
const IN_EVENTS: [&str; 7] = [
    "the first byte of the first event",
    "the first byte of a later event",
    "the last byte of an event",
    "within a header",
    "within a payload",
    "the last byte before the data's end",
    "the first byte behind the data's end",
];
const STRETCHES: [&str; 2] = ["first", "second"];

/// The parts by where they begin in the recording.
pub struct Places {
    events: Vec<usize>,
    /// Where the second stretch of the data begins, if there is one.
    data_end: Option<usize>,
    closing: usize,
}

pub fn names() -> Vec<String> {
    let mut names: Vec<String> = (0..OPENING).map(in_opening).collect();
    names.extend(IN_EVENTS.map(String::from));
    for stretch in STRETCHES {
        names.extend((0..8).map(|byte| in_stretch(stretch, byte)));
    }
    names.extend((0..CLOSING).map(in_closing));
    names
}

fn in_opening(byte: usize) -> String {
    let part = ["mark", "mark", "mark", "version", "version", "cpu_id", "cpu_id", "zero byte"][byte];
    format!("byte {byte} of the opening ({part})")
}

fn in_closing(byte: usize) -> String {
    format!("byte {byte} of the closing ({})", ["zeros", "handed", "missed"][byte / 8])
}

fn in_stretch(stretch: &str, byte: usize) -> String {
    format!("byte {byte} of eight in the {stretch} stretch")
}

impl Places {
    /// Of a ring that passes inspection.
    pub fn of(ring: &[u8]) -> Places {
        let (tail, live) = (tail(ring), (write(ring) - tail(ring)) as usize);
        let before_end = (capacity(ring) - tail % capacity(ring)) as usize;
        Places {
            events: starts(ring).into_iter().map(|at| OPENING + (at - tail) as usize).collect(),
            data_end: (before_end < live).then_some(OPENING + before_end),
            closing: OPENING + live,
        }
    }

    pub fn length(&self) -> usize {
        self.closing + CLOSING
    }

    /// What the byte at a place is.
    pub fn byte(&self, place: usize) -> Vec<String> {
        if place < OPENING {
            vec![in_opening(place)]
        } else if place < self.closing {
            self.in_events(place)
        } else {
            vec![in_closing(place - self.closing)]
        }
    }

    fn in_events(&self, place: usize) -> Vec<String> {
        let start = *self.events.iter().rfind(|start| **start <= place).unwrap();
        let seam = self.events.contains(&(place + 1)) || place + 1 == self.closing;
        let holds = [
            place == OPENING,
            place == start && place > OPENING,
            seam,
            place > start && place < start + 32,
            place >= start + 32,
            self.data_end == Some(place + 1),
            self.data_end == Some(place),
        ];
        let mut names: Vec<String> = filtered(&IN_EVENTS, &holds);
        names.push(self.stretch(place));
        names
    }

    fn stretch(&self, place: usize) -> String {
        match self.data_end {
            Some(data_end) if place >= data_end => in_stretch(STRETCHES[1], (place - data_end) % 8),
            _ => in_stretch(STRETCHES[0], (place - OPENING) % 8),
        }
    }

    /// What stands behind the end of a recording that is shorter.
    pub fn ends(&self, length: usize) -> Vec<String> {
        let holds = [
            length == 0,
            length > 0 && length < OPENING,
            length == OPENING,
            length > OPENING && length < self.closing && !self.events.contains(&length),
            length > OPENING && self.events.contains(&length),
            self.data_end == Some(length + 1),
            self.data_end == Some(length),
            self.data_end == Some(length.wrapping_sub(1)),
            length == self.closing,
            length > self.closing,
        ];
        filtered(&ENDS, &holds)
    }

    pub fn has_no_event(&self) -> bool {
        self.events.is_empty()
    }

    pub fn is_over_the_end(&self) -> bool {
        self.data_end.is_some()
    }

    /// The lengths of both stretches by what they leave of eight bytes, if there are two.
    pub fn stretches(&self) -> Option<[usize; 2]> {
        self.data_end.map(|data_end| [(data_end - OPENING) % 8, (self.closing - data_end) % 8])
    }
}

/// Where a recording ends that is shorter and agrees up to there.
pub const ENDS: [&str; 10] = [
    "empty",
    "ends within the opening",
    "ends behind the opening",
    "ends within an event",
    "ends between two events",
    "ends one byte before the data's end",
    "ends at the data's end",
    "ends one byte behind the data's end",
    "ends before the closing",
    "ends within the closing",
];

/// The names beside which something holds.
pub fn filtered(names: &[&str], holds: &[bool]) -> Vec<String> {
    names.iter().zip(holds).filter(|(_, holds)| **holds).map(|(name, _)| name.to_string()).collect()
}

#[cfg(test)]
mod tests {
    use super::*;

    /// The sums' ring of line 4: two events of 128 bytes, the second with 96 before the data's end.
    fn line_4() -> Places {
        Places { events: vec![8, 136], data_end: Some(232), closing: 264 }
    }

    #[test]
    fn a_byte_has_its_names() {
        let byte = |place| line_4().byte(place);
        assert_eq!(byte(2), ["byte 2 of the opening (mark)"]);
        assert_eq!(byte(8), ["the first byte of the first event", "byte 0 of eight in the first stretch"]);
        assert_eq!(byte(39), ["within a header", "byte 7 of eight in the first stretch"]);
        assert_eq!(byte(40), ["within a payload", "byte 0 of eight in the first stretch"]);
        assert_eq!(byte(135), ["the last byte of an event", "within a payload", "byte 7 of eight in the first stretch"]);
        assert_eq!(byte(136), ["the first byte of a later event", "byte 0 of eight in the first stretch"]);
        let before = "the last byte before the data's end";
        assert_eq!(byte(231), ["within a payload", before, "byte 7 of eight in the first stretch"]);
        let behind = "the first byte behind the data's end";
        assert_eq!(byte(232), ["within a payload", behind, "byte 0 of eight in the second stretch"]);
        assert_eq!(byte(264), ["byte 0 of the closing (zeros)"]);
        assert_eq!((byte(279), byte(287)), (vec![in_closing(15)], vec!["byte 23 of the closing (missed)".to_string()]));
    }

    #[test]
    fn an_end_has_its_name() {
        for (length, name) in [0, 7, 8, 9, 136].into_iter().zip(ENDS).chain([264, 287].into_iter().zip(ENDS[8..].iter().copied()))
        {
            assert_eq!(line_4().ends(length), [name]);
        }
        for (length, name) in (231..=233).zip(&ENDS[5..]) {
            assert_eq!(line_4().ends(length), [ENDS[3], name]);
        }
        let empty = Places { events: Vec::new(), data_end: None, closing: 8 };
        assert_eq!(empty.ends(8), ["ends behind the opening", "ends before the closing"]);
    }
}
