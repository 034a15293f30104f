//! How often need_wake has each of some values when an event is accepted, a swap carried out or an event dropped, and how often
//! futex_counter is at its highest then. The answers don't tell, so the scripts are played.

use crate::count::{gathered, word};
use crate::script::Machine;
use crate::stored::lines;
use std::collections::BTreeMap;
use std::path::Path;

const FLAGS: [u8; 7] = [0, 1, 2, 127, 128, 254, 255];
const CALLS: [Call; 3] = [Call::Accepted, Call::Swapped, Call::Dropped];

#[derive(Clone, Copy, Debug, PartialEq, Eq, PartialOrd, Ord)]
enum Call {
    Accepted,
    Swapped,
    Dropped,
}

#[derive(Clone, Copy, Default)]
struct Times {
    all: usize,
    at_highest: usize,
}

type Counts = BTreeMap<(Call, u8), Times>;

pub fn print(folder: &Path) -> Result<(), String> {
    let counts = gathered(folder, add)?;
    println!("\nneed_wake: call times (of these with futex_counter at 2^32 - 1), ..");
    for flag in FLAGS {
        println!("{flag:>3}: {}", CALLS.map(|call| shown(&counts, call, flag)).join(", "));
    }
    Ok(())
}

fn shown(counts: &Counts, call: Call, flag: u8) -> String {
    let Times { all, at_highest } = times(counts, call, flag);
    format!("{call:?} {all} ({at_highest})").to_lowercase()
}

fn times(counts: &Counts, call: Call, flag: u8) -> Times {
    counts.get(&(call, flag)).copied().unwrap_or_default()
}

/// A rest that no newline ends is no command, so it isn't played.
fn add(counts: &mut Counts, script: &[u8]) {
    let mut machine = Machine::new();
    for line in lines(script).into_iter().filter_map(|line| line.strip_suffix(b"\n")) {
        let before = flag_and_counter(&machine, line);
        let answer = machine.play(line);
        if let (Some(call), Some((flag, counter))) = (call(line, &answer), before) {
            let times = counts.entry((call, flag)).or_default();
            times.all += 1;
            times.at_highest += usize::from(counter == u32::MAX);
        }
    }
}

fn call(line: &[u8], answer: &str) -> Option<Call> {
    match (word(line, 0).as_str(), word(answer.as_bytes(), 0).as_str()) {
        ("emit" | "emitlen", "done" | "wake") => Some(Call::Accepted),
        ("swap", "done" | "wake") => Some(Call::Swapped),
        ("emit" | "emitlen", "dropped") => Some(Call::Dropped),
        _ => None,
    }
}

/// Of the buffer that stands first in the line, which is a swap's old ring.
fn flag_and_counter(machine: &Machine, line: &[u8]) -> Option<(u8, u32)> {
    let buffer: usize = word(line, 1).parse().ok()?;
    let ring = machine.buffers.get(buffer)?;
    let counter = ring.get(128..132)?.try_into().ok()?;
    Some((*ring.get(4096)?, u32::from_le_bytes(counter)))
}

#[cfg(test)]
mod tests {
    use super::*;

    #[test]
    fn each_flag_is_stored_often() {
        let counts = gathered(Path::new("stored"), add).unwrap();
        for flag in FLAGS {
            for call in CALLS {
                let Times { all, at_highest } = times(&counts, call, flag);
                assert!(all >= 50 && at_highest >= 10, "need_wake {flag}: {}", shown(&counts, call, flag));
            }
        }
    }
}
