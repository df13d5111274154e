//! How entries are printed, and other rows: in which form, and with which of an entry's fields.
use crate::columns::{Cells, Column};
use crate::fault::Fault;
use crate::source::Row;
use crate::text::typed;
use crate::words::Words;
use crate::{json, separated, table};
use std::ffi::OsStr;
use std::io::{Result, Write};
use std::os::unix::ffi::OsStrExt;

pub struct Form {
    output: Output,
    /// None: the number of the fields, and MESSAGE; one object a line has all of them.
    fields: Option<Vec<Vec<u8>>>,
    heading: bool,
}

#[derive(Clone, Copy)]
enum Output {
    Table,
    Tsv,
    Csv,
    Json,
}

/// The options, of entries and of other rows.
pub const NAMES: [&str; 3] = ["-o", "--fields", "--no-header"];
pub const OTHER_NAMES: [&str; 2] = ["-o", "--no-header"];

impl Form {
    pub fn new(words: &Words) -> std::result::Result<Form, Fault> {
        Ok(Form {
            output: words.option("-o", output)?.unwrap_or(Output::Table),
            fields: words.option("--fields", names)?,
            heading: !words.given("--no-header"),
        })
    }

    /// The same with this field first.
    pub fn with(self, name: &[u8]) -> Form {
        let mut fields = vec![name.to_vec()];
        let others = self.fields.into_iter().flatten();
        fields.extend(others.filter(|other| other != name));
        Form {
            fields: Some(fields),
            ..self
        }
    }

    /// Prints entries; those of two files with the number of the file.
    pub fn print(&self, rows: &[Row], of_two: bool, out: &mut impl Write) -> Result<()> {
        match self.output {
            Output::Json => json::lines(rows, self.fields.as_deref(), out),
            _ => self.cells(&self.columns(of_two), rows, out),
        }
    }

    /// Prints rows of cells.
    pub fn cells<R>(
        &self,
        columns: &[impl Cells<R>],
        rows: &[R],
        out: &mut impl Write,
    ) -> Result<()> {
        match self.output {
            Output::Table => table::lines(columns, rows, self.heading, out),
            Output::Tsv => separated::tsv(columns, rows, self.heading, out),
            Output::Csv => separated::csv(columns, rows, self.heading, out),
            Output::Json => json::cells(columns, rows, out),
        }
    }

    fn columns(&self, of_two: bool) -> Vec<Column> {
        let mut columns = match of_two {
            true => vec![Column::File],
            false => Vec::new(),
        };
        columns.extend([Column::Seqnum, Column::Local, Column::Realtime]);
        match &self.fields {
            None => columns.extend([Column::Count, Column::Message]),
            Some(names) => columns.extend(names.iter().cloned().map(Column::Field)),
        }
        columns
    }
}

fn output(value: &OsStr) -> std::result::Result<Output, String> {
    match value.as_bytes() {
        b"table" => Ok(Output::Table),
        b"tsv" => Ok(Output::Tsv),
        b"csv" => Ok(Output::Csv),
        b"json" => Ok(Output::Json),
        _ => Err("it is table, tsv, csv or json".to_string()),
    }
}

fn names(value: &OsStr) -> std::result::Result<Vec<Vec<u8>>, String> {
    let name = |text: &[u8]| match typed(text)? {
        name if name.is_empty() => Err("a name is missing".to_string()),
        name if name.contains(&b'=') => Err("a name has no =".to_string()),
        name => Ok(name),
    };
    value
        .as_bytes()
        .split(|&byte| byte == b',')
        .map(name)
        .collect()
}
