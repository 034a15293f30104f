//! A script of calls on rings, and its answers. The rules stand in README.md.

mod adler;
mod command;
pub mod fields;
mod machine;

pub use machine::Machine;

pub const LONGEST_SCRIPT: usize = 1_048_576;
pub const LONGEST_BUFFER: usize = 40_960;

/// All answers, each line ended by one newline byte.
pub fn answer(script: &[u8]) -> Vec<u8> {
    if script.len() > LONGEST_SCRIPT {
        return b"too long\n".to_vec();
    }
    let mut machine = Machine::new();
    let mut answers = Vec::new();
    for line in script.split_inclusive(|byte| *byte == b'\n') {
        answers.extend_from_slice(answer_line(&mut machine, line).as_bytes());
        answers.push(b'\n');
    }
    answers
}

/// A rest that no newline ends may have been cut off in the middle of a field, so it is no command.
fn answer_line(machine: &mut Machine, line: &[u8]) -> String {
    match line.strip_suffix(b"\n") {
        Some(ended) => machine.play(ended),
        None => machine::UNKNOWN.to_string(),
    }
}

#[cfg(test)]
mod tests;
