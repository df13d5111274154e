//! What was typed, taken apart.
use crate::facts::Facts;
use crate::fault::Fault;
use crate::form::Form;
use crate::ids::{self, Id};
use crate::parts::Shape;
use crate::questions::{self, By, Wanted};
use crate::selection::Selection;
use crate::text::shown;
use crate::words::{Files, Words};
use crate::writes::{self, Write};
use crate::{help, room, times};
use std::ffi::{OsStr, OsString};
use std::path::PathBuf;

pub enum Command {
    Help(&'static str),
    Version,
    List {
        files: Files,
        which: Selection,
        form: Form,
    },
    Show {
        files: Files,
        wanted: Wanted,
    },
    Find {
        files: Files,
        by: By,
        form: Form,
    },
    Newest {
        files: Files,
        name: Vec<u8>,
        which: Selection,
        form: Form,
    },
    Values {
        files: Files,
        name: Vec<u8>,
    },
    Export {
        files: Files,
    },
    Check {
        file: PathBuf,
    },
    Why {
        file: PathBuf,
        form: Facts,
    },
    Foreign {
        file: PathBuf,
        form: Form,
    },
    Room(Shape),
    Write(Write),
}

/// The command that some words are.
pub fn command(words: &[OsString]) -> Result<Command, Fault> {
    let Some((name, rest)) = words.split_first() else {
        return Err(Fault::usage("a command is missing"));
    };
    let name = &*name.to_string_lossy();
    if name == "--plain" {
        return plain(command(rest)?);
    }
    if let Some(text) = help::asked_for(words) {
        return text.map(Command::Help);
    }
    match name {
        "--version" | "-V" => Ok(Command::Version),
        "list" => questions::list(rest),
        "show" => questions::show(rest),
        "find" => questions::find(rest),
        "newest" => questions::newest(rest),
        "values" => questions::values(rest),
        "export" => questions::export(rest),
        "check" => {
            let [file] = Words::new(rest, &[])?.plain("check FILE")?;
            Ok(Command::Check { file: file.into() })
        }
        "why" => questions::why(rest),
        "foreign" => questions::foreign(rest),
        "room" => room::typed(rest).map(Command::Room),
        "new" | "append" | "import" | "copy" => writes::command(name, rest).map(Command::Write),
        _ => Err(Fault::usage(format!(
            "no command {}",
            shown(name.as_bytes())
        ))),
    }
}

/// The same command by the plain reader, which has the lookups alone.
fn plain(command: Command) -> Result<Command, Fault> {
    Ok(match command {
        Command::List { files, which, form } => Command::List {
            files: files.plain()?,
            which,
            form,
        },
        Command::Find { files, by, form } => Command::Find {
            files: files.plain()?,
            by,
            form,
        },
        Command::Values { files, name } => Command::Values {
            files: files.plain()?,
            name,
        },
        Command::Help(text) => Command::Help(text),
        _ => return Err(Fault::usage("--plain goes with list, find and values")),
    })
}

pub fn number(value: &OsStr) -> Result<u64, String> {
    let text = value.to_string_lossy();
    match text.bytes().all(|byte| byte.is_ascii_digit()) {
        true if text.is_empty() => Err("no number".to_string()),
        true => text.parse().map_err(|_| "above 2^64 - 1".to_string()),
        false => Err("no number".to_string()),
    }
}

pub fn time(value: &OsStr) -> Result<u64, String> {
    times::parsed(&value.to_string_lossy())
}

pub fn id(value: &OsStr) -> Result<Id, String> {
    ids::parsed(&value.to_string_lossy()).ok_or("no id of 32 hexadecimal digits".to_string())
}
