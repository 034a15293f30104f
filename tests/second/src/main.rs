//! The second implementation: what `replay` must answer, and scripts to ask it.

mod count;
mod count_reasons;
mod count_recordings;
mod count_rings;
mod count_serial;
mod count_slips;
mod count_stretches;
mod count_verify;
mod count_wakes;
mod generate;
mod ring;
mod script;
mod stored;
#[cfg(test)]
mod sums;

use std::io::{self, Read, Write};
use std::path::Path;
use std::process::ExitCode;

const USAGE: &str = "second answer < SCRIPT > ANSWERS
second generate DIR
second check DIR
second count DIR";

fn main() -> ExitCode {
    let words: Vec<String> = std::env::args().skip(1).collect();
    let words: Vec<&str> = words.iter().map(String::as_str).collect();
    let outcome = match words.as_slice() {
        ["answer"] => answer_input(),
        ["generate", folder] => stored::write(Path::new(folder)),
        ["check", folder] => stored::check(Path::new(folder)),
        ["count", folder] => count(Path::new(folder)),
        _ => Err(USAGE.to_string()),
    };
    match outcome {
        Ok(()) => ExitCode::SUCCESS,
        Err(reason) => {
            eprintln!("{reason}");
            ExitCode::FAILURE
        }
    }
}

fn count(folder: &Path) -> Result<(), String> {
    count::print(folder)?;
    count_wakes::print(folder)?;
    count_recordings::print(folder)?;
    count_stretches::print(folder)?;
    count_serial::print(folder)?;
    count_reasons::print(folder)?;
    count_slips::print(folder)?;
    count_verify::print(folder)
}

/// One byte above the longest script tells that it is too long; the rest need not be held.
fn answer_input() -> Result<(), String> {
    let mut script = Vec::new();
    let enough = script::LONGEST_SCRIPT as u64 + 1;
    io::stdin().take(enough).read_to_end(&mut script).map_err(|error| error.to_string())?;
    io::stdout().write_all(&script::answer(&script)).map_err(|error| error.to_string())
}
