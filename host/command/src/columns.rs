//! Columns, and those that entries are printed in.
use crate::source::Row;
use crate::text::shown;
use crate::{payload, times};

/// A column of what is printed row by row.
pub trait Cells<R> {
    fn heading(&self) -> String;

    /// What a row has in it; none where it has no such thing.
    fn cell(&self, row: &R) -> Option<String>;

    /// Whether it is set at the right, as numbers are.
    fn at_the_right(&self) -> bool;

    /// How wide it is at least, in a table.
    fn width(&self) -> usize {
        0
    }
}

pub enum Column {
    /// 1 or 2, of two files.
    File,
    Seqnum,
    Local,
    Realtime,
    /// The number of the fields.
    Count,
    /// The first value of MESSAGE.
    Message,
    /// All values of a field.
    Field(Vec<u8>),
}

/// Stands between several values of one field. No value has it: in what `shown` prints another
/// backslash or an x comes after a backslash.
const BETWEEN: &str = "\\|";

/// How long a local time is, of the years from 1000 to 9999.
const LOCAL: usize = 32;

impl Cells<Row<'_>> for Column {
    fn heading(&self) -> String {
        match self {
            Column::File => "file".to_string(),
            Column::Seqnum => "seqnum".to_string(),
            Column::Local => "local time".to_string(),
            Column::Realtime => "realtime".to_string(),
            Column::Count => "fields".to_string(),
            Column::Message => "MESSAGE".to_string(),
            Column::Field(name) => shown(name),
        }
    }

    fn cell(&self, row: &Row) -> Option<String> {
        let entry = &row.entry;
        match self {
            Column::File => row.file.map(|file| file.number().to_string()),
            Column::Seqnum => Some(entry.seqnum.to_string()),
            Column::Local => Some(times::shown(entry.realtime)),
            Column::Realtime => Some(entry.realtime.to_string()),
            Column::Count => Some(entry.payloads.len().to_string()),
            Column::Message => payload::values(entry, b"MESSAGE").next().map(shown),
            Column::Field(name) => {
                let values: Vec<String> = payload::values(entry, name).map(shown).collect();
                (!values.is_empty()).then(|| values.join(BETWEEN))
            }
        }
    }

    fn at_the_right(&self) -> bool {
        !matches!(self, Column::Local | Column::Message | Column::Field(_))
    }

    fn width(&self) -> usize {
        match self {
            Column::Local => LOCAL,
            _ => 0,
        }
    }
}
