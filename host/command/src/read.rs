//! The commands that only read: `list`, `show`, `find`, `newest` and `values`, of one file or of two
//! as one stream; `list`, `find` and `values` also by the plain reader.
use crate::fault::Fault;
use crate::form::Form;
use crate::questions::{By, Wanted};
use crate::selection::Selection;
use crate::source::{Row, Source};
use crate::text::shown;
use crate::words::Files;
use crate::{payload, table, times};
use std::collections::HashMap;
use std::io::Write;

pub fn list(
    files: Files,
    which: &Selection,
    form: &Form,
    out: &mut impl Write,
) -> Result<(), Fault> {
    let source = Source::read(files)?;
    let rows = source.shown(which.last(which.span(source.entries()?), false));
    let printed = form.print(&rows, source.is_two(), out);
    printed.map_err(Fault::answer)
}

/// Of two files all entries of a number: each may have one, and they need not be equal.
pub fn show(files: Files, wanted: &Wanted, out: &mut impl Write) -> Result<(), Fault> {
    let source = Source::read(files)?;
    let mut rows = source.entries()?;
    match wanted {
        Wanted::Last => rows = Vec::from_iter(rows.pop()),
        Wanted::Seqnum(seqnum) => {
            let above = rows.iter().map(|row| row.entry.seqnum);
            let next = above.filter(|other| other > seqnum).min();
            rows.retain(|row| row.entry.seqnum == *seqnum);
            if rows.is_empty() {
                return Err(source.fault(no_entry(*seqnum, next)));
            }
        }
    }
    if rows.is_empty() {
        return Err(source.fault("no entry"));
    }
    for (row, place) in rows.iter().zip(0..) {
        if place > 0 {
            writeln!(out).map_err(Fault::answer)?;
        }
        table::full(row, out).map_err(Fault::answer)?;
    }
    Ok(())
}

/// There is none of this number; the next one has another, if there is a next one.
fn no_entry(seqnum: u64, next: Option<u64>) -> String {
    match next {
        Some(next) => format!("no entry {seqnum}; the next one is {next}"),
        None => format!("no entry {seqnum}, and none with a higher number"),
    }
}

/// By a number or a time the first that has it or is above; by fields all that hold them.
pub fn find(files: Files, by: &By, form: &Form, out: &mut impl Write) -> Result<(), Fault> {
    let source = Source::read(files)?;
    let rows = match by {
        By::Seqnum(seqnum) => Vec::from_iter(source.from_seqnum(*seqnum)?),
        By::Realtime(realtime) => Vec::from_iter(source.from_time(*realtime)?),
        By::Payloads(payloads, which) => which.last(which.span(source.holding(payloads)?), false),
    };
    match rows[..] {
        [] => Err(source.fault(format!("no entry {}", looked_for(by)))),
        _ => form
            .print(&source.shown(rows), source.is_two(), out)
            .map_err(Fault::answer),
    }
}

/// What is looked for, in words.
fn looked_for(by: &By) -> String {
    match by {
        By::Seqnum(seqnum) => format!("with a sequence number of {seqnum} or above"),
        By::Realtime(realtime) => {
            format!("at {} ({realtime}) or later", times::shown(*realtime))
        }
        By::Payloads(payloads, which) => {
            let all = Vec::from_iter(payloads.iter().map(|payload| shown(payload)));
            format!("with {}{}", all.join(" and "), which.words())
        }
    }
}

/// Each value of a field with the last entry that holds it, in the order of these entries.
pub fn newest(
    files: Files,
    name: &[u8],
    which: &Selection,
    form: Form,
    out: &mut impl Write,
) -> Result<(), Fault> {
    let source = Source::read(files)?;
    let rows = which.span(source.entries()?);
    let mut last: HashMap<&[u8], (usize, usize)> = HashMap::new();
    for (row, place) in rows.iter().zip(0..) {
        for (payload, item) in row.entry.payloads.iter().zip(0..) {
            if payload::name(payload) == name {
                last.insert(payload, (place, item));
            }
        }
    }
    if last.is_empty() {
        return Err(source.fault(format!("{}{}", no_field(name), which.words())));
    }
    let mut last = Vec::from_iter(last);
    // Of several values in one entry the first comes first, where the newest do.
    last.sort_by_key(|&(_, (place, item))| (place, std::cmp::Reverse(item)));
    let row = |&(payload, (place, _)): &(&[u8], (usize, usize))| {
        let mut entry = rows[place].entry.clone();
        let others = |it: &&[u8]| payload::name(it) != name || *it == payload;
        entry.payloads.retain(others);
        Row {
            file: rows[place].file,
            entry,
        }
    };
    let newest = which.last(last.iter().map(row).collect(), true);
    let printed = form.with(name).print(&newest, source.is_two(), out);
    printed.map_err(Fault::answer)
}

pub fn values(files: Files, name: &[u8], out: &mut impl Write) -> Result<(), Fault> {
    let source = Source::read(files)?;
    let values = source.values(name)?;
    if values.is_empty() {
        return Err(source.fault(no_field(name)));
    }
    for (file, payload) in values {
        let file = file.map_or(String::new(), |file| format!("{}  ", file.number()));
        let value = shown(payload::value(payload));
        writeln!(out, "{file}{value}").map_err(Fault::answer)?;
    }
    Ok(())
}

fn no_field(name: &[u8]) -> String {
    format!("no entry with a field {}", shown(name))
}
