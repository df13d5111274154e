//! Entries as JSON, one object a line, in the way of `journalctl -o json`: numbers are strings, a
//! value that is no text is an array of its bytes, and several values of a field are an array of
//! them. No value is left out for its length. What is no entry has its cells as strings.
use crate::columns::Cells;
use crate::source::Row;
use crate::text::{prints, shown};
use crate::{ids, payload};
use std::io::{Result, Write};

/// All fields, or those of some names.
pub fn lines(rows: &[Row], fields: Option<&[Vec<u8>]>, out: &mut impl Write) -> Result<()> {
    for row in rows {
        writeln!(out, "{}", object(row, fields))?;
    }
    Ok(())
}

/// Each cell under its heading.
pub fn cells<R>(columns: &[impl Cells<R>], rows: &[R], out: &mut impl Write) -> Result<()> {
    for row in rows {
        let pairs = columns
            .iter()
            .filter_map(|column| Some((column.heading(), column.cell(row)?)));
        writeln!(out, "{}", self::pairs(&Vec::from_iter(pairs)))?;
    }
    Ok(())
}

/// An object of names and strings.
pub fn pairs(pairs: &[(impl AsRef<str>, String)]) -> String {
    let pair =
        |(name, text): &(_, String)| format!("{}:{}", string(AsRef::as_ref(name)), string(text));
    format!("{{{}}}", Vec::from_iter(pairs.iter().map(pair)).join(","))
}

fn object(row: &Row, fields: Option<&[Vec<u8>]>) -> String {
    let entry = &row.entry;
    let wanted = |name: &[u8]| fields.is_none_or(|fields| fields.iter().any(|it| it == name));
    let mut keys: Vec<(String, Vec<String>)> = Vec::new();
    // Journald writes the boot id among the fields too; a value is given once.
    let mut add = |name: &[u8], value: &[u8]| {
        let (name, value) = (shown(name), given(value));
        match keys.iter_mut().find(|(other, _)| *other == name) {
            Some((_, values)) if values.contains(&value) => {}
            Some((_, values)) => values.push(value),
            None => keys.push((name, vec![value])),
        }
    };
    if let Some(file) = row.file {
        add(b"file", file.number().to_string().as_bytes());
    }
    for (name, number) in [
        ("__SEQNUM", entry.seqnum),
        ("__REALTIME_TIMESTAMP", entry.realtime),
        ("__MONOTONIC_TIMESTAMP", entry.monotonic),
    ] {
        add(name.as_bytes(), number.to_string().as_bytes());
    }
    add(b"_BOOT_ID", ids::shown(&entry.boot_id).as_bytes());
    for payload in entry.payloads.iter() {
        if wanted(payload::name(payload)) {
            add(payload::name(payload), payload::value(payload));
        }
    }
    let pair = |(name, values): &(String, Vec<String>)| match &values[..] {
        [value] => format!("{}:{value}", string(name)),
        _ => format!("{}:[{}]", string(name), values.join(",")),
    };
    format!("{{{}}}", Vec::from_iter(keys.iter().map(pair)).join(","))
}

/// A string where journalctl gives one too: UTF-8 without control characters but tab and newline.
fn given(value: &[u8]) -> String {
    let harmless = |it: char| !it.is_control() || it == '\t' || it == '\n';
    match std::str::from_utf8(value) {
        Ok(text) if text.chars().all(harmless) => string(text),
        _ => {
            let bytes = value.iter().map(|byte| byte.to_string());
            format!("[{}]", Vec::from_iter(bytes).join(","))
        }
    }
}

/// What does not print is escaped, so that the line is safe to look at too.
fn string(text: &str) -> String {
    let mut string = String::with_capacity(text.len() + 2);
    string.push('"');
    for character in text.chars() {
        match character {
            '"' => string.push_str("\\\""),
            '\\' => string.push_str("\\\\"),
            '\t' => string.push_str("\\t"),
            '\n' => string.push_str("\\n"),
            _ if prints(character) => string.push(character),
            _ => {
                for unit in character.encode_utf16(&mut [0; 2]) {
                    string.push_str(&format!("\\u{unit:04x}"));
                }
            }
        }
    }
    string.push('"');
    string
}
