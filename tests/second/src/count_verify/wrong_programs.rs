//! Programs that have read the request wrongly, and how often the stored set tells each of them from the right one.

mod comparing;
mod inspecting;
mod naming;

use super::ended;
use super::recording::{agreed, as_it_stands};
use crate::count::{gathered, number};
use crate::ring::{inspect, verify, Refusal, Verified};
use crate::script::Machine;
use std::collections::BTreeMap;
use std::path::Path;

type Answer = Result<Verified, Refusal>;
type Program = fn(&[u8], &[u8]) -> Answer;

/// Counted by name: the lines that a program answers otherwise.
type Counts = BTreeMap<&'static str, usize>;

fn all() -> Vec<(&'static str, Program)> {
    let exchanged: (&str, Program) = ("the ring and the recording are exchanged", |ring, recording| verify(recording, ring));
    [&comparing::WRONG[..], &inspecting::WRONG, &naming::WRONG, &[exchanged]].concat()
}

/// Put together of the counts' own reading; a program is wrong by what it does otherwise.
fn right(ring: &[u8], recording: &[u8]) -> Answer {
    inspect(ring)?;
    Ok(compared(&as_it_stands(ring), recording))
}

fn compared(own: &[u8], recording: &[u8]) -> Verified {
    let place = agreed(own, recording);
    if place == own.len() && place == recording.len() {
        Verified::Same
    } else {
        Verified::DiffersAt(place)
    }
}

/// On each line that isn't `unknown`.
fn add(counts: &mut Counts, script: &[u8]) {
    let mut machine = Machine::new();
    for line in ended(script) {
        let answer = machine.play(line);
        if !line.starts_with(b"verify ") || answer == "unknown" {
            continue;
        }
        let [ring, recording] = [1, 2].map(|field| machine.buffers[number(line, field) as usize].as_slice());
        let answer = verify(ring, recording);
        assert_eq!(right(ring, recording), answer);
        for (name, program) in all() {
            *counts.entry(name).or_insert(0) += usize::from(program(ring, recording) != answer);
        }
    }
}

#[test]
fn the_stored_set_tells_each_wrong_program_apart() {
    let counts: Counts = gathered(Path::new("stored"), add).unwrap();
    for (name, _) in all() {
        println!("{name}: {}", counts[name]);
        assert!(counts[name] >= 50, "{name}: {}", counts[name]);
    }
}
