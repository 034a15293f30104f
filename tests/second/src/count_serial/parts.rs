//! The parts of a file, up to the one with the fault, found with all its bytes at hand; and what is wrong with one.

#[derive(Clone, Copy, Debug, PartialEq, Eq)]
pub enum Kind {
    Opening,
    Header,
    Payload,
    Closing,
}

/// It may end behind the file's end.
pub struct Part {
    pub kind: Kind,
    pub start: usize,
    length: usize,
}

impl Part {
    pub fn end(&self) -> usize {
        self.start + self.length
    }
}

pub const BAD_FIELDS: [&str; 6] = ["event_size", "header_size", "cpu_id", "byte 29", "byte 30", "byte 31"];

/// `fault` is the place of the fault that was told, if one was.
pub fn of(file: &[u8], fault: Option<usize>) -> Vec<Part> {
    let mut parts = vec![Part { kind: Kind::Opening, start: 0, length: 8 }];
    let mut at = 8;
    while at <= file.len() && fault.is_none_or(|place| at <= place) {
        if file[at..].starts_with(&[0; 4]) {
            parts.push(Part { kind: Kind::Closing, start: at, length: 24 });
            break;
        }
        parts.push(Part { kind: Kind::Header, start: at, length: 32 });
        let Some(header) = file.get(at..at + 32) else { break };
        let size = u32::from_le_bytes(header[..4].try_into().unwrap()) as usize;
        if size > 32 {
            parts.push(Part { kind: Kind::Payload, start: at + 32, length: size - 32 });
        }
        at += size.max(32);
    }
    parts
}

fn number(bytes: &[u8]) -> u64 {
    u64::from_le_bytes(bytes.try_into().unwrap())
}

/// All the faults that hold in a part that is there whole.
pub fn faults(file: &[u8], parts: &[Part], part: &Part) -> Vec<u8> {
    let bytes = &file[part.start..part.end()];
    let before: Vec<&Part> = parts.iter().filter(|other| other.kind == Kind::Header && other.start < part.start).collect();
    let last = before.last().map_or(0, |header| number(&file[header.start + 8..header.start + 16]));
    let holding = match part.kind {
        Kind::Opening => vec![(1, bytes[..3] != *b"SPL"), (2, bytes[3..5] != [1, 0]), (3, bytes[7] != 0)],
        Kind::Header => vec![(4, !bad_fields(bytes, &file[5..7]).is_empty()), (5, number(&bytes[8..16]) <= last)],
        Kind::Payload => vec![],
        Kind::Closing => {
            let counts = (number(&bytes[8..16]), number(&bytes[16..24]));
            vec![(3, bytes[..8] != [0; 8]), (6, counts != (before.len() as u64, last - before.len() as u64))]
        }
    };
    holding.into_iter().filter(|(_, holds)| *holds).map(|(number, _)| number).collect()
}

/// Of a header's 32 bytes, those of `BAD_FIELDS` that are wrong.
pub fn bad_fields(header: &[u8], cpu_id: &[u8]) -> Vec<&'static str> {
    let size = u32::from_le_bytes(header[..4].try_into().unwrap());
    let wrong = [size < 32, header[4..6] != [32, 0], header[6..8] != *cpu_id, header[29] != 0, header[30] != 0, header[31] != 0];
    BAD_FIELDS.into_iter().zip(wrong).filter(|(_, wrong)| *wrong).map(|(field, _)| field).collect()
}
