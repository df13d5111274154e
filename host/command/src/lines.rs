//! The entries of a batch as text: one a line, its fields with tabs between them.
use crate::fault::Fault;
use crate::input;
use crate::text::typed;
use std::path::Path;

/// A line that is not empty.
pub struct Line {
    /// Counted from 1, empty lines too.
    pub number: usize,
    /// Each `NAME=value`.
    pub payloads: Vec<Vec<u8>>,
}

/// All lines of a text file, or of standard input. They are read before anything is appended, so that
/// nothing is done where one is typed wrongly.
pub fn read(from: Option<&Path>) -> Result<Vec<Line>, Fault> {
    let text = input::read(from)?;
    let lines = text.split(|&byte| byte == b'\n').zip(1..);
    let lines = lines.map(|(line, number)| (line.strip_suffix(b"\r").unwrap_or(line), number));
    lines
        .filter(|(line, _)| !line.is_empty())
        .map(|(line, number)| {
            let payloads = line.split(|&byte| byte == b'\t').map(typed).collect();
            let wrong = |why| Fault::usage(format!("line {number}: {why}"));
            let payloads: Result<_, String> = payloads;
            Ok(Line {
                number,
                payloads: payloads.map_err(wrong)?,
            })
        })
        .collect()
}
