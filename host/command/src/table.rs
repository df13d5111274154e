//! Rows in columns, and one entry in full.
use crate::columns::Cells;
use crate::source::Row;
use crate::text::shown;
use crate::{ids, times};
use std::io::{Result, Write};

/// A heading, and a line for each row.
pub fn lines<R>(
    columns: &[impl Cells<R>],
    rows: &[R],
    heading: bool,
    out: &mut impl Write,
) -> Result<()> {
    let cells = |row: &R| Vec::from_iter(columns.iter().map(|column| column.cell(row)));
    let mut all: Vec<Vec<Option<String>>> = rows.iter().map(cells).collect();
    let headings = columns.iter().map(|column| Some(column.heading()));
    all.insert(0, headings.collect());
    let width = |place: usize| {
        let cells = all.iter().filter_map(|cells| cells[place].as_ref());
        let widest = cells.map(|cell| cell.chars().count()).max().unwrap_or(0);
        widest.max(columns[place].width())
    };
    let widths: Vec<usize> = (0..columns.len()).map(width).collect();
    for cells in all.iter().skip(usize::from(!heading)) {
        writeln!(out, "{}", line(columns, &widths, cells))?;
    }
    Ok(())
}

/// One line, up to the last cell that has something.
fn line<R>(columns: &[impl Cells<R>], widths: &[usize], cells: &[Option<String>]) -> String {
    let end = cells.iter().rposition(|cell| cell.is_some());
    let end = end.map_or(0, |place| place + 1);
    let set = |place: usize| {
        let (cell, width) = (cells[place].as_deref().unwrap_or_default(), widths[place]);
        match columns[place].at_the_right() {
            true => format!("{cell:>width$}"),
            false if place + 1 == end => cell.to_string(),
            false => format!("{cell:<width$}"),
        }
    };
    Vec::from_iter((0..end).map(set)).join("  ")
}

/// All that the file tells of an entry.
pub fn full(row: &Row, out: &mut impl Write) -> Result<()> {
    let entry = &row.entry;
    if let Some(file) = row.file {
        writeln!(out, "file       {}", file.number())?;
    }
    writeln!(out, "seqnum     {}", entry.seqnum)?;
    writeln!(out, "local time {}", times::shown(entry.realtime))?;
    writeln!(out, "realtime   {}", entry.realtime)?;
    writeln!(out, "monotonic  {}", entry.monotonic)?;
    writeln!(out, "boot id    {}", ids::shown(&entry.boot_id))?;
    writeln!(out, "fields     {}", entry.payloads.len())?;
    for payload in &entry.payloads {
        writeln!(out, "  {}", shown(payload))?;
    }
    Ok(())
}
