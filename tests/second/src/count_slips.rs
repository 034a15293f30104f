//! How often copies and confirms give each answer, in which cases, and what came between the two. The answers don't tell all of
//! it, so the scripts are played.

mod conditions;
mod confirms;
mod copies;
mod watched;

use crate::count::gathered;
use std::collections::BTreeMap;
use std::path::Path;
use watched::{Watched, STAYED};

/// Counted where an answer isn't what the counts read in the ring, the record and the slip.
const OTHERWISE: &str = "answered otherwise";

type Counts = BTreeMap<String, usize>;

pub fn print(folder: &Path) -> Result<(), String> {
    let counts = gathered(folder, add)?;
    println!("\nslips: count");
    for (name, _) in names() {
        println!("{name}: {}", times(&counts, &name));
    }
    Ok(())
}

/// Everything that is counted, in the order shown, with the least that the set must have of it.
fn names() -> Vec<(String, usize)> {
    let stayed = STAYED.map(|name| (name.to_string(), 50));
    copies::names().into_iter().chain(confirms::names()).chain(stayed).collect()
}

fn times(counts: &Counts, name: &str) -> usize {
    counts.get(name).copied().unwrap_or_default()
}

fn add(counts: &mut Counts, script: &[u8]) {
    let mut watched = Watched::new();
    for name in watched.all(script) {
        *counts.entry(name).or_insert(0) += 1;
    }
}

#[cfg(test)]
mod tests {
    use super::*;

    fn stored() -> Counts {
        gathered(Path::new("stored"), add).unwrap()
    }

    #[test]
    fn each_case_of_copies_and_confirms_is_stored_often() {
        let counts = stored();
        for (name, least) in names() {
            assert!(times(&counts, &name) >= least, "{name}: {}", times(&counts, &name));
        }
    }

    /// By the counts' own reading of the bytes and numbers.
    #[test]
    fn copies_and_confirms_are_answered_as_they_stand() {
        let counts = stored();
        assert!(times(&counts, "copy event") > 2000 && times(&counts, "confirm refused 13") > 2000);
        for command in ["copy", "confirm"] {
            assert_eq!(times(&counts, &format!("{command} {OTHERWISE}")), 0, "{command}");
        }
    }

    #[test]
    fn everything_that_is_counted_is_shown() {
        let names: Vec<String> = names().into_iter().map(|(name, _)| name).collect();
        for name in stored().keys() {
            assert!(names.contains(name), "{name}");
        }
    }
}
