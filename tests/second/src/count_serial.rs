//! How often the reader of recordings gives each report and each fault, and where files were cut. Of which part a byte is, those
//! after it may tell, so a file is looked at when it is over.

mod parts;

use crate::count::{gathered, word};
use crate::script::{fields, Machine};
use crate::stored::lines;
use parts::{Kind, Part};
use std::collections::BTreeMap;
use std::path::Path;

const REPORTS: [&str; 3] = ["header", "payload", "closing"];
const WAYS: [&str; 3] = ["byte by byte", "whole", "in other pieces"];
const CALLS: [&str; 3] = ["empty piece", "end", "serial"];
const LOCATIONS: [&str; 8] = [
    "at the start",
    "within an opening",
    "within a header",
    "within a payload",
    "within a closing",
    "between parts",
    "after the closing",
    "after a fault",
];
/// The first is the one that counts.
const TOGETHER: [(u8, u8); 5] = [(1, 2), (1, 3), (2, 3), (4, 5), (3, 6)];
const SPLIT: [(Kind, usize); 3] = [(Kind::Opening, 7), (Kind::Header, 31), (Kind::Closing, 23)];

type Counts = BTreeMap<String, usize>;

/// All that was fed from one fresh reader to the next.
#[derive(Default)]
struct File {
    bytes: Vec<u8>,
    /// Where each piece ended.
    cuts: Vec<usize>,
    /// Calls that may come anywhere: which one, the file's length then, and whether a fault had been told.
    calls: Vec<(&'static str, usize, bool)>,
    /// Number and place.
    fault: Option<(u8, usize)>,
    closed: bool,
}

pub fn print(folder: &Path) -> Result<(), String> {
    let counts = gathered(folder, add)?;
    println!("\nserial: count");
    for (name, _) in names() {
        println!("{name}: {}", times(&counts, &name));
    }
    Ok(())
}

/// Everything that is counted, in the order shown, with the least that the set must have of it.
fn names() -> Vec<(String, usize)> {
    let mut names: Vec<String> = (1..=8).map(fault).collect();
    names.extend(REPORTS.map(report));
    names.extend(WAYS.map(sound));
    names.extend(TOGETHER.map(|(first, other)| together(first, other)));
    names.extend(parts::BAD_FIELDS.map(bad_header));
    names.push("pieces after a fault".to_string());
    names.push("pieces that end within a payload".to_string());
    names.extend(LOCATIONS.iter().flat_map(|location| CALLS.map(|call| called(call, location))));
    let mut names: Vec<(String, usize)> = names.into_iter().map(|name| (name, 50)).collect();
    for (kind, most) in SPLIT {
        names.extend((1..=most).map(|bytes| (split(kind, bytes), 50)));
        names.extend((1..=most).map(|bytes| (in_two(kind, bytes), 10)));
    }
    names.extend((1..=31).map(|size| (too_small(size), 2)));
    names
}

fn fault(number: u8) -> String {
    format!("fault {number}")
}

fn report(kind: &str) -> String {
    format!("report {kind}")
}

fn sound(way: &str) -> String {
    format!("sound files fed {way}")
}

fn together(first: u8, other: u8) -> String {
    format!("fault {first} where {other} holds too")
}

fn bad_header(field: &str) -> String {
    format!("fault 4 by {field}")
}

fn too_small(size: u64) -> String {
    format!("fault 4 by event_size {size}")
}

fn called(call: &str, location: &str) -> String {
    format!("{call} {location}")
}

fn split(kind: Kind, bytes: usize) -> String {
    format!("{kind:?} split after {bytes}")
}

fn in_two(kind: Kind, bytes: usize) -> String {
    format!("{kind:?} in two pieces, the first of {bytes}")
}

fn times(counts: &Counts, name: &str) -> usize {
    counts.get(name).copied().unwrap_or_default()
}

fn once(counts: &mut Counts, name: String) {
    *counts.entry(name).or_insert(0) += 1;
}

/// A rest that no newline ends is no command, so it isn't played. A last file without an end isn't looked at.
fn add(counts: &mut Counts, script: &[u8]) {
    let mut machine = Machine::new();
    let mut file = File::default();
    for line in lines(script).into_iter().filter_map(|line| line.strip_suffix(b"\n")) {
        let answer = machine.play(line);
        match (word(line, 0).as_str(), word(answer.as_bytes(), 0).as_str()) {
            ("feed", "fed") => feed(counts, &mut file, line, &answer),
            ("end", "ended") => {
                file.called("end");
                tell(counts, &mut file, &answer);
                look_at(counts, &std::mem::take(&mut file));
            }
            ("serial", "ok") => {
                file.called("serial");
                look_at(counts, &std::mem::take(&mut file));
            }
            _ => {}
        }
    }
}

impl File {
    fn called(&mut self, call: &'static str) {
        self.calls.push((call, self.bytes.len(), self.fault.is_some()));
    }
}

fn feed(counts: &mut Counts, file: &mut File, line: &[u8], answer: &str) {
    let piece = fields::bytes(word(line, 1).as_bytes()).unwrap();
    if piece.is_empty() {
        file.called("empty piece");
    } else if file.fault.is_some() {
        once(counts, "pieces after a fault".to_string());
    }
    file.bytes.extend_from_slice(&piece);
    file.cuts.push(file.bytes.len());
    tell(counts, file, answer);
}

/// What an answer reports.
fn tell(counts: &mut Counts, file: &mut File, answer: &str) {
    let words: Vec<&str> = answer.split(' ').collect();
    for (index, kind) in words.iter().enumerate() {
        if REPORTS.contains(kind) {
            once(counts, report(kind));
        }
        file.closed |= *kind == "closing";
        if *kind == "fault" {
            let (number, place) = (words[index + 1].parse().unwrap(), words[index + 3].parse().unwrap());
            file.fault = Some((number, place));
            once(counts, fault(number));
        }
    }
}

fn look_at(counts: &mut Counts, file: &File) {
    let parts = parts::of(&file.bytes, file.fault.map(|(_, place)| place));
    if file.closed && file.fault.is_none() {
        once(counts, sound(way(file)));
    }
    for (call, length, after_fault) in &file.calls {
        let location = if *after_fault { "after a fault" } else { location(&parts, *length) };
        once(counts, called(call, location));
    }
    for part in &parts {
        splits(counts, file, part);
    }
    if let Some((number, place)) = file.fault {
        faults(counts, file, &parts, number, place);
    }
}

fn way(file: &File) -> &'static str {
    if file.cuts.len() == 1 {
        "whole"
    } else if file.cuts.iter().copied().eq(1..=file.bytes.len()) {
        "byte by byte"
    } else {
        "in other pieces"
    }
}

/// Where a file of a given length has come to.
fn location(parts: &[Part], length: usize) -> &'static str {
    let within = parts.iter().find(|part| part.start < length && length < part.end());
    let closed = parts.iter().any(|part| part.kind == Kind::Closing && part.end() <= length);
    match within.map(|part| part.kind) {
        Some(Kind::Opening) => "within an opening",
        Some(Kind::Header) => "within a header",
        Some(Kind::Payload) => "within a payload",
        Some(Kind::Closing) => "within a closing",
        None if closed => "after the closing",
        None if length == 0 => "at the start",
        None => "between parts",
    }
}

/// Only parts that arrived whole count.
fn splits(counts: &mut Counts, file: &File, part: &Part) {
    let mut within: Vec<usize> = file.cuts.iter().copied().filter(|cut| part.start < *cut && *cut < part.end()).collect();
    within.dedup();
    if part.kind == Kind::Payload {
        within.iter().for_each(|_| once(counts, "pieces that end within a payload".to_string()));
    } else if part.end() <= file.bytes.len() {
        for cut in &within {
            once(counts, split(part.kind, cut - part.start));
        }
        if let [cut] = within[..] {
            once(counts, in_two(part.kind, cut - part.start));
        }
    }
}

/// Which other faults hold in the part that was told, and by what a header is bad.
fn faults(counts: &mut Counts, file: &File, parts: &[Part], number: u8, place: usize) {
    let Some(part) = parts.iter().find(|part| part.start == place && part.end() <= file.bytes.len()) else { return };
    let holding = parts::faults(&file.bytes, parts, part);
    for (first, other) in TOGETHER {
        if first == number && holding.contains(&other) {
            once(counts, together(first, other));
        }
    }
    if number == 4 {
        let header = &file.bytes[place..place + 32];
        let cpu_id = &file.bytes[5..7];
        parts::bad_fields(header, cpu_id).into_iter().for_each(|field| once(counts, bad_header(field)));
        let size = u32::from_le_bytes(header[..4].try_into().unwrap());
        once(counts, too_small(size.into()));
    }
}

#[cfg(test)]
mod tests {
    use super::*;

    #[test]
    fn each_report_fault_and_cut_is_stored_often() {
        let counts = gathered(Path::new("stored"), add).unwrap();
        for (name, least) in names() {
            assert!(times(&counts, &name) >= least, "{name}: {}", times(&counts, &name));
        }
    }
}
