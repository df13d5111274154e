//! `room`: how many bytes a file takes that holds so many entries of one shape.
use crate::arguments::number;
use crate::columns::Cells;
use crate::fault::Fault;
use crate::parts::{sum, Part, Shape};
use crate::sizes::{self, Sizes};
use crate::text::counted;
use crate::words::{wrong, Words};
use crate::{shape, table, why_new};
use std::ffi::OsString;
use std::io::Write;

/// What was typed after `room`.
pub fn typed(rest: &[OsString]) -> Result<Shape, Fault> {
    let words = Words::new(rest, &[&["--entries"][..], &sizes::NAMES].concat())?;
    let sizes = Sizes::new(&words)?;
    if let Some(why) = why_new::of(&sizes) {
        return Err(Fault::usage(why));
    }
    let entries = match words.option("--entries", number)? {
        Some(0) => return Err(wrong("--entries", "0".as_ref(), "at least one is counted")),
        Some(entries) => entries,
        None => {
            let usage = "room --entries N NAME=BYTES[/VALUES] .. and options";
            return Err(Fault::usage(format!("the command is {usage}")));
        }
    };
    Ok(Shape {
        entries,
        fields: shape::fields(&words.plain, entries)?,
        sizes,
    })
}

pub fn room(shape: &Shape, out: &mut impl Write) -> Result<(), Fault> {
    let mut parts = shape.parts(shape.entries);
    let sum = sum(&parts);
    let fits = shape.fits(&sum);
    parts.push(sum);
    let columns = [
        Column::Part,
        Column::Objects,
        Column::Bytes,
        Column::Room,
        Column::Most,
    ];
    table::lines(&columns, &parts, true, out).map_err(Fault::answer)?;
    if fits {
        return Ok(());
    }
    let (size, entries) = (shape.sizes.size, shape.fitting());
    let entries = counted(entries as usize, "such entry", "such entries");
    writeln!(out, "a file of {size} bytes holds {entries}").map_err(Fault::answer)
}

/// The columns that the parts are printed in.
enum Column {
    Part,
    Objects,
    Bytes,
    Room,
    Most,
}

impl Cells<Part> for Column {
    fn heading(&self) -> String {
        let heading = match self {
            Column::Part => "part",
            Column::Objects => "objects",
            Column::Bytes => "bytes",
            Column::Room => "room",
            Column::Most => "at most",
        };
        heading.to_string()
    }

    fn cell(&self, part: &Part) -> Option<String> {
        match self {
            Column::Part => Some(part.what.to_string()),
            Column::Objects => Some(part.objects.to_string()),
            Column::Bytes => Some(part.bytes.to_string()),
            Column::Room => part.room.map(|(room, _)| room.to_string()),
            Column::Most => part.room.map(|(_, most)| most.to_string()),
        }
    }

    fn at_the_right(&self) -> bool {
        !matches!(self, Column::Part)
    }
}
