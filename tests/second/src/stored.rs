//! The stored set: a script and its answers for each name, written or compared.

use crate::generate;
use crate::script;
use std::fs;
use std::path::Path;

/// File name and content of everything that is stored.
fn files() -> Vec<(String, Vec<u8>)> {
    let mut files = Vec::new();
    for (name, script) in generate::scripts() {
        files.push((format!("{name}.answers"), script::answer(&script)));
        files.push((format!("{name}.script"), script));
    }
    files
}

pub fn write(folder: &Path) -> Result<(), String> {
    fs::create_dir_all(folder).map_err(|error| error.to_string())?;
    for (name, content) in files() {
        fs::write(folder.join(&name), &content).map_err(|error| format!("{name}: {error}"))?;
        println!("{name}: {} bytes, {} lines", content.len(), lines(&content).len());
    }
    Ok(())
}

pub fn check(folder: &Path) -> Result<(), String> {
    let mut same = 0;
    for (name, content) in files() {
        let stored = fs::read(folder.join(&name)).map_err(|error| format!("{name}: {error}"))?;
        compare(&name, &stored, &content)?;
        same += 1;
    }
    println!("{same} files the same");
    Ok(())
}

fn compare(name: &str, stored: &[u8], made: &[u8]) -> Result<(), String> {
    if stored == made {
        return Ok(());
    }
    let (old, new) = (lines(stored), lines(made));
    let first = old.iter().zip(&new).take_while(|(old, new)| old == new).count();
    Err(format!("{name}: line {} differs from what is stored", first + 1))
}

pub fn lines(content: &[u8]) -> Vec<&[u8]> {
    content.split_inclusive(|byte| *byte == b'\n').collect()
}

#[cfg(test)]
mod tests {
    use super::*;

    #[test]
    fn the_stored_set_is_made_again() {
        check(Path::new("stored")).unwrap();
    }

    #[test]
    fn no_script_is_too_long() {
        assert!(generate::scripts().iter().all(|(_, script)| script.len() < script::LONGEST_SCRIPT));
    }
}
