//! The text that a command is given.
use crate::fault::{said, Fault};
use std::io::{stdin, Read};
use std::path::Path;

/// All of a text file, or of standard input. It is read before a file is locked, so that no lock is held
/// while somebody types.
pub fn read(from: Option<&Path>) -> Result<Vec<u8>, Fault> {
    let name = from.unwrap_or(Path::new("standard input"));
    let text = match from {
        Some(file) => std::fs::read(file),
        None => all_of_input(),
    };
    text.map_err(|error| Fault::of(name, said(&error)))
}

fn all_of_input() -> std::io::Result<Vec<u8>> {
    let mut text = Vec::new();
    stdin().lock().read_to_end(&mut text)?;
    Ok(text)
}
