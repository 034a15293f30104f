//! How often `record` gives each of its answers and refusals, and in pieces of which sizes. Whether a piece reaches the end is
//! told by the ring alone, so the scripts are played.

use crate::count::{gathered, word};
use crate::script::Machine;
use crate::stored::lines;
use std::collections::BTreeMap;
use std::path::Path;

const ANSWERS: [&str; 6] = [
    "part",
    "to the end",
    "whole in one piece",
    "nothing: placed all",
    "nothing: none lent",
    "nothing: placed all and none lent",
];
const REFUSALS: [u64; 8] = [1, 2, 3, 4, 5, 6, 10, 13];
const SIZES: [u64; 5] = [1, 7, 31, 32, 33];

/// Of a ring of the largest capacity, with the opening and the closing.
const LONGEST_RECORDING: u64 = 8 + 1_048_576 + 24;

type Counts = BTreeMap<String, usize>;

/// One line of `record` and what it met.
struct Call {
    placed: u64,
    lent: u64,
    answer: String,
    /// By the page's positions; of use only if the ring passed 1 to 6.
    length: u64,
}

pub fn print(folder: &Path) -> Result<(), String> {
    let counts = gathered(folder, add)?;
    println!("\nrecord: count");
    for name in names() {
        println!("{name}: {}", times(&counts, &name));
    }
    Ok(())
}

/// Everything that is counted, in the order shown.
fn names() -> Vec<String> {
    let mut names: Vec<String> = ANSWERS.iter().map(|name| name.to_string()).collect();
    names.extend(REFUSALS.map(refused));
    names.extend(REFUSALS[..7].iter().map(|number| above(&refused(*number))));
    names.extend(SIZES.map(piece));
    names
}

fn refused(number: u64) -> String {
    format!("refused {number}")
}

fn above(refused: &str) -> String {
    format!("{refused} with a number above the length")
}

fn piece(size: u64) -> String {
    format!("pieces of {size}")
}

fn times(counts: &Counts, name: &str) -> usize {
    counts.get(name).copied().unwrap_or_default()
}

/// A rest that no newline ends is no command, so it isn't played.
fn add(counts: &mut Counts, script: &[u8]) {
    let mut machine = Machine::new();
    for line in lines(script).into_iter().filter_map(|line| line.strip_suffix(b"\n")) {
        let answer = machine.play(line);
        if let Some(call) = call(&machine, line, answer) {
            for name in names_of(&call) {
                *counts.entry(name).or_insert(0) += 1;
            }
        }
    }
}

/// The ring is the same after the call as before it.
fn call(machine: &Machine, line: &[u8], answer: String) -> Option<Call> {
    if word(line, 0) != "record" || answer == "unknown" {
        return None;
    }
    let number = |index| word(line, index).parse::<u64>().unwrap();
    let ring = &machine.buffers[number(1) as usize];
    let position = |at: usize| ring.get(at..at + 8).map_or(0, |bytes| u64::from_le_bytes(bytes.try_into().unwrap()));
    let length = position(64).wrapping_sub(position(72)).wrapping_add(32);
    Some(Call { placed: number(2), lent: number(3), answer, length })
}

fn names_of(call: &Call) -> Vec<String> {
    let number: u64 = word(call.answer.as_bytes(), 1).parse().unwrap();
    if call.answer.starts_with("refused") {
        return names_of_refusal(call, number);
    }
    let mut names = vec![kind(call, number).to_string()];
    if number == call.lent && number > 0 {
        names.push(piece(number));
    }
    names
}

fn names_of_refusal(call: &Call, number: u64) -> Vec<String> {
    let highest = if number == 10 { call.length } else { LONGEST_RECORDING };
    let mut names = vec![refused(number)];
    if call.placed > highest {
        names.push(above(&refused(number)));
    }
    names
}

fn kind(call: &Call, count: u64) -> &'static str {
    let at_the_end = call.placed + count == call.length;
    match (count, at_the_end, call.placed, call.lent) {
        (0, true, _, 0) => "nothing: placed all and none lent",
        (0, true, _, _) => "nothing: placed all",
        (0, false, _, _) => "nothing: none lent",
        (_, true, 0, _) => "whole in one piece",
        (_, true, _, _) => "to the end",
        (_, false, _, _) => "part",
    }
}

#[cfg(test)]
mod tests {
    use super::*;

    /// With a number above any length, refusals 1 to 6 are asked for less often: the six stand before that question together.
    #[test]
    fn each_answer_of_record_is_stored_often() {
        let counts = gathered(Path::new("stored"), add).unwrap();
        for name in names() {
            let one_of_six = name.ends_with("length") && !name.starts_with("refused 10");
            let least = if one_of_six { 10 } else { 50 };
            assert!(times(&counts, &name) >= least, "{name}: {}", times(&counts, &name));
        }
    }
}
