//! What was typed of the commands that read, taken apart.
use crate::arguments::{number, time, Command};
use crate::facts::Facts;
use crate::fault::Fault;
use crate::form::{self, Form};
use crate::selection::{self, Selection};
use crate::text::typed;
use crate::words::{wrong, Words};
use std::ffi::{OsStr, OsString};
use std::os::unix::ffi::OsStrExt;

/// What entries are looked for by.
pub enum By {
    Seqnum(u64),
    Realtime(u64),
    Payloads(Vec<Vec<u8>>, Selection),
}

/// Which entry is shown.
pub enum Wanted {
    Seqnum(u64),
    Last,
}

pub fn list(rest: &[OsString]) -> Result<Command, Fault> {
    let words = Words::new(rest, &[&selection::NAMES[..], &form::NAMES].concat())?;
    let (which, form) = (Selection::new(&words)?, Form::new(&words)?);
    let (files, []) = words.files("list FILE [FILE2]")?;
    Ok(Command::List { files, which, form })
}

pub fn show(rest: &[OsString]) -> Result<Command, Fault> {
    let usage = "show FILE [FILE2] SEQNUM";
    let (files, [seqnum]) = Words::new(rest, &[])?.files(usage)?;
    let wanted = match seqnum.as_bytes() {
        b"last" => Wanted::Last,
        _ => {
            let number = number(&seqnum);
            Wanted::Seqnum(number.map_err(|why| wrong("SEQNUM", &seqnum, &why))?)
        }
    };
    Ok(Command::Show { files, wanted })
}

pub fn find(rest: &[OsString]) -> Result<Command, Fault> {
    let own = ["--seqnum", "--time", "--field"];
    let words = Words::new(rest, &[&own[..], &selection::NAMES, &form::NAMES].concat())?;
    let payloads = words.every("--field", payload)?;
    let by = [
        words.option("--seqnum", number)?.map(By::Seqnum),
        words.option("--time", time)?.map(By::Realtime),
        match payloads[..] {
            [] => None,
            _ => Some(By::Payloads(payloads, Selection::new(&words)?)),
        },
    ];
    let selected = selection::NAMES.iter().find(|name| words.given(name));
    let form = Form::new(&words)?;
    let usage = "find FILE [FILE2] and one of --seqnum N, --time T and --field NAME=VALUE";
    let (files, []) = words.files(usage)?;
    let by = <[By; 1]>::try_from(Vec::from_iter(by.into_iter().flatten()));
    match (by, selected) {
        (Ok([By::Seqnum(_) | By::Realtime(_)]), Some(name)) => Err(Fault::usage(format!(
            "{name} goes with --field: by a number or a time one entry is found"
        ))),
        (Ok([by]), _) => Ok(Command::Find { files, by, form }),
        (Err(_), _) => Err(Fault::usage(format!("the command is {usage}"))),
    }
}

pub fn newest(rest: &[OsString]) -> Result<Command, Fault> {
    let words = Words::new(rest, &[&selection::NAMES[..], &form::NAMES].concat())?;
    let (which, form) = (Selection::new(&words)?, Form::new(&words)?);
    let (files, [name]) = words.files("newest FILE [FILE2] NAME")?;
    Ok(Command::Newest {
        files,
        name: field_name(&name)?,
        which,
        form,
    })
}

pub fn values(rest: &[OsString]) -> Result<Command, Fault> {
    let (files, [name]) = Words::new(rest, &[])?.files("values FILE [FILE2] NAME")?;
    Ok(Command::Values {
        files,
        name: field_name(&name)?,
    })
}

pub fn export(rest: &[OsString]) -> Result<Command, Fault> {
    let (files, []) = Words::new(rest, &[])?.files("export FILE [FILE2]")?;
    Ok(Command::Export { files })
}

pub fn why(rest: &[OsString]) -> Result<Command, Fault> {
    let words = Words::new(rest, &["-o"])?;
    let form = words.option("-o", Facts::typed)?.unwrap_or(Facts::Lines);
    let [file] = words.plain("why FILE")?;
    Ok(Command::Why {
        file: file.into(),
        form,
    })
}

pub fn foreign(rest: &[OsString]) -> Result<Command, Fault> {
    let words = Words::new(rest, &form::OTHER_NAMES)?;
    let form = Form::new(&words)?;
    let [file] = words.plain("foreign FILE")?;
    Ok(Command::Foreign {
        file: file.into(),
        form,
    })
}

/// A field as it is printed.
fn payload(value: &OsStr) -> Result<Vec<u8>, String> {
    match typed(value.as_bytes())? {
        payload if payload.contains(&b'=') => Ok(payload),
        _ => Err("no NAME=VALUE".to_string()),
    }
}

/// A name as it is printed.
fn field_name(value: &OsStr) -> Result<Vec<u8>, Fault> {
    typed(value.as_bytes()).map_err(|why| wrong("NAME", value, &why))
}
