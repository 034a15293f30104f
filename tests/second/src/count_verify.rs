//! How often `verify` gives each of its answers, at which places of the recording, for which lengths and beside which rings. The
//! answers don't tell all of it, so the scripts are played.

mod call;
mod places;
mod recording;
#[cfg(test)]
mod wrong_programs;

use crate::count::{gathered, number, word};
use crate::script::Machine;
use crate::stored::lines;
use call::Call;
use places::filtered;
use std::collections::BTreeMap;
use std::path::Path;

/// Counted where an answer isn't what the counts read in the ring and the recording.
const OTHERWISE: &str = "answered otherwise";

/// The set must have as much of everything that is counted.
const LEAST: usize = 50;

/// Sums that follow a call with no other line between, of the ring, of the recording and of the output buffer.
const SUMS: [&str; 3] = ["sum of the ring after it", "sum of the recording after it", "outsum after it"];
const UNKNOWN: &str = "unknown";

type Counts = BTreeMap<String, usize>;

pub fn print(folder: &Path) -> Result<(), String> {
    let counts = gathered(folder, add)?;
    println!("\nverify: count");
    for name in names() {
        println!("{name}: {}", times(&counts, &name));
    }
    enough(&counts)
}

/// An error that tells what is too little.
fn enough(counts: &Counts) -> Result<(), String> {
    let lacking = names().into_iter().filter(|name| times(counts, name) < LEAST);
    let lacking: Vec<String> = lacking.map(|name| format!("verify {name}: {}", times(counts, &name))).collect();
    if lacking.is_empty() {
        Ok(())
    } else {
        Err(format!("fewer than {LEAST} times:\n{}", lacking.join("\n")))
    }
}

/// Everything that is counted, in the order shown.
fn names() -> Vec<String> {
    let others = SUMS.into_iter().chain([UNKNOWN]).map(String::from);
    call::names().into_iter().chain(others).collect()
}

fn times(counts: &Counts, name: &str) -> usize {
    counts.get(name).copied().unwrap_or_default()
}

fn add(counts: &mut Counts, script: &[u8]) {
    let mut watched = Watched { machine: Machine::new(), last_call: None };
    for line in ended(script) {
        for name in watched.play(line) {
            *counts.entry(name).or_insert(0) += 1;
        }
    }
}

/// A rest that no newline ends is no command, so it isn't played.
fn ended(script: &[u8]) -> impl Iterator<Item = &[u8]> {
    lines(script).into_iter().filter_map(|line| line.strip_suffix(b"\n"))
}

/// A script being played.
struct Watched {
    machine: Machine,
    /// The ring's buffer and the recording's of the last call, if only sums have come since.
    last_call: Option<[u64; 2]>,
}

impl Watched {
    fn play(&mut self, line: &[u8]) -> Vec<String> {
        let answer = self.machine.play(line);
        match word(line, 0).as_str() {
            "verify" if answer == "unknown" => vec![UNKNOWN.to_string()],
            "verify" => self.verified(line, &answer),
            "sum" | "outsum" if answer != "unknown" => self.summed(line),
            _ => {
                self.last_call = None;
                Vec::new()
            }
        }
    }

    fn verified(&mut self, line: &[u8], answer: &str) -> Vec<String> {
        let buffers = [number(line, 1), number(line, 2)];
        self.last_call = Some(buffers);
        let inspected = self.machine.play(format!("inspect {}", buffers[0]).as_bytes());
        let [ring, recording] = buffers.map(|buffer| self.machine.buffers[buffer as usize].as_slice());
        Call { buffers, ring, recording, answer, inspected: &inspected }.names()
    }

    fn summed(&self, line: &[u8]) -> Vec<String> {
        let Some(buffers) = self.last_call else { return Vec::new() };
        let holds = if line == b"outsum" { [false, false, true] } else { sum_of(number(line, 1), buffers) };
        filtered(&SUMS, &holds)
    }
}

fn sum_of(buffer: u64, [ring, recording]: [u64; 2]) -> [bool; 3] {
    [buffer == ring, buffer == recording, false]
}

#[cfg(test)]
mod tests {
    use super::*;

    fn stored() -> Counts {
        gathered(Path::new("stored"), add).unwrap()
    }

    #[test]
    fn each_case_of_verify_is_stored_often() {
        enough(&stored()).unwrap();
    }

    /// By the counts' own reading of the ring and the recording, and by inspection.
    #[test]
    fn verify_is_answered_as_it_stands() {
        let counts = stored();
        assert!(times(&counts, "same") > 1000 && times(&counts, "differs") > 3000);
        assert_eq!(times(&counts, OTHERWISE), 0);
    }

    #[test]
    fn everything_that_is_counted_is_shown() {
        let names = names();
        for name in stored().keys() {
            assert!(names.contains(name), "{name}");
        }
    }

    #[test]
    fn too_little_is_told() {
        let told = enough(&Counts::new()).unwrap_err();
        assert_eq!(told.lines().count(), 1 + names().len());
        assert!(told.contains("\nverify same: 0\n"));
    }
}
