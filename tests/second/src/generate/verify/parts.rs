//! A recording in its parts, to be put together otherwise.

use super::images::word;

#[derive(Clone)]
pub struct Parts {
    pub opening: Vec<u8>,
    pub events: Vec<Vec<u8>>,
    pub handed: u64,
    pub missed: u64,
}

impl Parts {
    /// Of a recording that `record` gave.
    pub fn of(recording: &[u8]) -> Parts {
        let (opening, rest) = recording.split_at(8);
        let (mut rest, closing) = rest.split_at(rest.len() - 24);
        let mut events = Vec::new();
        while !rest.is_empty() {
            let size = u32::from_le_bytes(rest[..4].try_into().unwrap());
            let (event, behind) = rest.split_at(size as usize);
            events.push(event.to_vec());
            rest = behind;
        }
        Parts { opening: opening.to_vec(), events, handed: word(closing, 8), missed: word(closing, 16) }
    }

    pub fn joined(&self) -> Vec<u8> {
        [self.opening.clone(), self.events.concat(), self.closing()].concat()
    }

    pub fn closing(&self) -> Vec<u8> {
        [[0; 8], self.handed.to_le_bytes(), self.missed.to_le_bytes()].concat()
    }

    /// With other counts, right or wrong.
    pub fn with_counts(&self, handed: u64, missed: u64) -> Vec<u8> {
        Parts { handed, missed, ..self.clone() }.joined()
    }

    /// With other events, and the counts that a ring with these would have.
    pub fn with_events(&self, events: Vec<Vec<u8>>) -> Vec<u8> {
        let handed = events.len() as u64;
        let last = events.last().map_or(0, |event| word(event, 8));
        Parts { events, ..self.clone() }.with_counts(handed, last.saturating_sub(handed))
    }
}
