//! How often each answer and each refusal number occurs in a stored set.

use crate::stored::lines;
use std::collections::BTreeMap;
use std::fs;
use std::path::Path;

type Counts = BTreeMap<(String, String), usize>;

pub fn print(folder: &Path) -> Result<(), String> {
    let counts = stored_counts(folder)?;
    for number in refusal_numbers() {
        println!("{}: {}", refused(number), refusals(&counts, number));
    }
    println!("\ncommand: answer count, ..");
    for command in commands(&counts) {
        let found = counts.iter().filter(|((of, _), _)| *of == command);
        let row: Vec<String> = found.map(|((_, answer), count)| format!("{answer} {count}")).collect();
        println!("{command}: {}", row.join(", "));
    }
    Ok(())
}

fn stored_counts(folder: &Path) -> Result<Counts, String> {
    let mut counts = Counts::new();
    for path in scripts(folder)? {
        let script = fs::read(&path).map_err(|error| error.to_string())?;
        let answers = fs::read(path.with_extension("answers")).map_err(|error| error.to_string())?;
        add(&mut counts, &script, &answers)?;
    }
    Ok(counts)
}

/// What `add` makes of the stored scripts, one after the other.
pub fn gathered<Counts: Default>(folder: &Path, add: impl Fn(&mut Counts, &[u8])) -> Result<Counts, String> {
    let mut counts = Counts::default();
    for path in scripts(folder)? {
        add(&mut counts, &fs::read(&path).map_err(|error| error.to_string())?);
    }
    Ok(counts)
}

fn scripts(folder: &Path) -> Result<Vec<std::path::PathBuf>, String> {
    let entries = fs::read_dir(folder).map_err(|error| error.to_string())?;
    let mut paths: Vec<_> = entries.filter_map(|entry| entry.ok().map(|entry| entry.path())).collect();
    paths.retain(|path| path.extension().is_some_and(|extension| extension == "script"));
    paths.sort();
    Ok(paths)
}

fn add(counts: &mut Counts, script: &[u8], answers: &[u8]) -> Result<(), String> {
    let (script, answers) = (lines(script), lines(answers));
    if script.len() != answers.len() {
        return Err(format!("{} lines have {} answers", script.len(), answers.len()));
    }
    for (line, answer) in script.iter().zip(answers) {
        let kind = kind(line, answer);
        let command = if kind == "unknown" { "any line".to_string() } else { word(line, 0) };
        *counts.entry((command, kind)).or_insert(0) += 1;
    }
    Ok(())
}

/// The first word of an answer, with the number if it is a refusal.
fn kind(line: &[u8], answer: &[u8]) -> String {
    match (word(line, 0).as_str(), word(answer, 0).as_str()) {
        (_, "refused") => refused(word(answer, 1).parse().unwrap_or(0)),
        (_, "too") => "too long".to_string(),
        ("get", first) if first != "outside" && first != "unknown" => "bytes".to_string(),
        (_, first) => first.to_string(),
    }
}

/// Those that a script's line can be refused with. Number 12 isn't used, and 17 is given by the C call alone.
fn refusal_numbers() -> impl Iterator<Item = u8> {
    (1..=11).chain(13..=16)
}

/// Padded, so that refusals sort by number.
fn refused(number: u8) -> String {
    format!("refused {number:>2}")
}

pub fn word(line: &[u8], index: usize) -> String {
    let text = String::from_utf8_lossy(line);
    text.split_whitespace().nth(index).unwrap_or("").to_string()
}

/// A word that is known to be a number.
pub fn number(text: &[u8], index: usize) -> u64 {
    word(text, index).parse().unwrap()
}

fn refusals(counts: &Counts, number: u8) -> usize {
    counts.iter().filter(|((_, answer), _)| *answer == refused(number)).map(|(_, count)| count).sum()
}

fn commands(counts: &Counts) -> Vec<String> {
    let mut commands: Vec<String> = counts.keys().map(|(command, _)| command.clone()).collect();
    commands.dedup();
    commands
}

#[cfg(test)]
mod tests {
    use super::*;

    #[test]
    fn each_refusal_is_stored_often() {
        let counts = stored_counts(Path::new("stored")).unwrap();
        for number in refusal_numbers() {
            assert!(refusals(&counts, number) >= 50, "number {number}");
        }
    }

    #[test]
    fn no_other_refusal_is_stored() {
        let counts = stored_counts(Path::new("stored")).unwrap();
        let known: Vec<String> = refusal_numbers().map(refused).collect();
        for (command, answer) in counts.keys().filter(|(_, answer)| answer.starts_with("refused")) {
            assert!(known.contains(answer), "{command}: {answer}");
        }
    }
}
