//! The commands that write, `new`, `append`, `import` and `copy`: what was typed after them, and what they do.
use crate::arguments::{id, number};
use crate::done::Manner;
use crate::fault::Fault;
use crate::files::PATIENCE;
use crate::sizes::{self, Sizes};
use crate::words::Words;
use crate::{append, appends, batch, copy, import, new};
use std::ffi::OsString;
use std::path::PathBuf;
use std::time::Duration;

pub struct Write {
    pub file: PathBuf,
    pub what: What,
    pub manner: Manner,
}

pub enum What {
    New(new::Wish),
    Append(append::Wish),
    Batch(batch::Wish),
    Import(import::Wish),
    Copy { to: PathBuf },
}

pub fn carry_out(write: Write) -> Result<(), Fault> {
    let Write { file, what, manner } = &write;
    match what {
        What::New(wish) => new::new(file, wish, manner),
        What::Append(wish) => append::append(file, wish, manner),
        What::Batch(wish) => batch::append(file, wish, manner),
        What::Import(wish) => import::import(file, wish, manner),
        What::Copy { to } => copy::copy(file, to, manner),
    }
}

/// The command of one of the four names.
pub fn command(name: &str, rest: &[OsString]) -> Result<Write, Fault> {
    match name {
        "new" => new_file(rest),
        "append" => appends::append(rest),
        "import" => appends::import(rest),
        _ => copied(rest),
    }
}

fn new_file(rest: &[OsString]) -> Result<Write, Fault> {
    let (rest, [unkeyed, quiet]) = flags(rest, ["--unkeyed", "--quiet"]);
    let own = ["--machine", "--boot", "--seqnum-id"];
    let words = Words::new(&rest, &[&sizes::NAMES[..], &own].concat())?;
    let wish = new::Wish {
        sizes: Sizes::new(&words)?,
        unkeyed,
        machine: words.option("--machine", id)?,
        boot: words.option("--boot", id)?,
        seqnum_id: words.option("--seqnum-id", id)?,
    };
    let manner = manner(&words, quiet)?;
    let [file] = words.plain("new FILE and options")?;
    Ok(Write {
        file: file.into(),
        what: What::New(wish),
        manner,
    })
}

fn copied(rest: &[OsString]) -> Result<Write, Fault> {
    let (rest, [quiet]) = flags(rest, ["--quiet"]);
    let words = Words::new(&rest, &["--wait"])?;
    let manner = manner(&words, quiet)?;
    let [file, to] = words.plain("copy FILE TO")?;
    Ok(Write {
        file: file.into(),
        what: What::Copy { to: to.into() },
        manner,
    })
}

pub fn manner(words: &Words, quiet: bool) -> Result<Manner, Fault> {
    let wait = words.option("--wait", number)?;
    Ok(Manner {
        wait: wait.map_or(PATIENCE, Duration::from_secs),
        quiet,
    })
}

/// Options without a value: the other words, and whether each was given. After `--` there are none.
pub fn flags<const N: usize>(words: &[OsString], names: [&str; N]) -> (Vec<OsString>, [bool; N]) {
    let end = words.iter().position(|word| word == "--");
    let (options, plain) = words.split_at(end.unwrap_or(words.len()));
    let given = names.map(|name| options.iter().any(|word| word == name));
    let others = options
        .iter()
        .filter(|word| !names.iter().any(|name| *word == name));
    (others.chain(plain).cloned().collect(), given)
}
