//! `export`: all entries of a file, or of the stream of two, as text in the Journal Export Format.
use crate::fault::Fault;
use crate::payload::{is_reserved, name};
use crate::source::{Row, Source};
use crate::why::field;
use crate::words::Files;
use std::io::Write;
use wrapper::{text, Entry, Exchanged};

/// Nothing is left out silently: at an entry that no text can have it ends, and says so.
pub fn export(files: Files, out: &mut impl Write) -> Result<(), Fault> {
    let source = Source::read(files)?;
    for (row, before) in source.entries()?.iter().zip(0..) {
        match text(&Exchanged::from(&row.entry)) {
            Ok(text) => out.write_all(&text).map_err(Fault::answer)?,
            Err(refusal) => {
                // What is said to be written is.
                out.flush().map_err(Fault::answer)?;
                let words = words(row, before);
                return Err(Fault::because(source.path(row), refusal, &words));
            }
        }
    }
    Ok(())
}

fn words(row: &Row, before: usize) -> String {
    let done = match before {
        0 => "nothing is written".to_string(),
        1 => "the entry before it is written, and nothing from there on".to_string(),
        _ => format!("the {before} entries before it are written, and nothing from there on"),
    };
    let (seqnum, why) = (row.entry.seqnum, why(&row.entry));
    format!("entry {seqnum} can't be exported: {why}; {done}")
}

/// Its first field that can't be, or that it has none that could.
fn why(entry: &Entry) -> String {
    let others = entry.payloads.iter().filter(|it| !is_reserved(name(it)));
    let others = Vec::from_iter(others.copied());
    let none = "it has no field but such as are not exported, _BOOT_ID and those with __ in front";
    field(&others).unwrap_or(none.to_string())
}
