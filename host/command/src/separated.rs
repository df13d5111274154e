//! Rows in columns for other programs: with a tab between them, or with a comma. Cells are in the
//! form that `shown` prints, so that no tab and no newline is in them, and a line is a row.
use crate::columns::Cells;
use std::io::{Result, Write};

pub fn tsv<R>(
    columns: &[impl Cells<R>],
    rows: &[R],
    heading: bool,
    out: &mut impl Write,
) -> Result<()> {
    lines(columns, rows, heading, "\t", |cell| cell, out)
}

pub fn csv<R>(
    columns: &[impl Cells<R>],
    rows: &[R],
    heading: bool,
    out: &mut impl Write,
) -> Result<()> {
    lines(columns, rows, heading, ",", quoted, out)
}

fn lines<R>(
    columns: &[impl Cells<R>],
    rows: &[R],
    heading: bool,
    between: &str,
    set: fn(String) -> String,
    out: &mut impl Write,
) -> Result<()> {
    if heading {
        let headings = columns.iter().map(|column| set(column.heading()));
        writeln!(out, "{}", Vec::from_iter(headings).join(between))?;
    }
    for row in rows {
        let cells = columns.iter().map(|column| column.cell(row));
        let cells = cells.map(|cell| set(cell.unwrap_or_default()));
        writeln!(out, "{}", Vec::from_iter(cells).join(between))?;
    }
    Ok(())
}

/// In quotes, and a quote twice, where a reader of commas would go wrong.
fn quoted(cell: String) -> String {
    match cell.contains([',', '"']) {
        true => format!("\"{}\"", cell.replace('"', "\"\"")),
        false => cell,
    }
}
