//! Words that were typed: options, and plain ones.
use crate::fault::Fault;
use crate::text::shown;
use std::ffi::{OsStr, OsString};
use std::os::unix::ffi::OsStrExt;
use std::path::PathBuf;

/// Words after a command: options with their values, and plain ones.
pub struct Words {
    options: Vec<(&'static str, OsString)>,
    pub plain: Vec<OsString>,
}

/// One file, or two that are read as one stream, or one for the plain reader.
pub enum Files {
    One(PathBuf),
    Two([PathBuf; 2]),
    Plain(PathBuf),
}

impl Files {
    /// The same for the plain reader, which takes one.
    pub fn plain(self) -> Result<Files, Fault> {
        match self {
            Files::One(file) => Ok(Files::Plain(file)),
            Files::Two(_) => Err(Fault::usage("--plain reads one file, and not two")),
            Files::Plain(_) => Err(Fault::usage("--plain is given twice")),
        }
    }
}

/// Options that have no value, and those that may be given several times.
const ALONE: [&str; 2] = ["--no-header", "--reverse"];
const SEVERAL: [&str; 1] = ["--field"];

impl Words {
    /// Takes words apart: `--name value`, `--name=value`, `-n value`, `-nvalue`, and after `--` plain
    /// ones alone.
    pub fn new(words: &[OsString], names: &[&'static str]) -> Result<Words, Fault> {
        let (mut options, mut plain) = (Vec::new(), Vec::new());
        let mut words = words.iter();
        while let Some(word) = words.next() {
            let bytes = word.as_bytes();
            if bytes == b"--" {
                plain.extend(words.by_ref().cloned());
                break;
            }
            if !bytes.starts_with(b"-") {
                plain.push(word.clone());
                continue;
            }
            let (typed, value) = name_and_value(bytes);
            let Some(&name) = names.iter().find(|name| name.as_bytes() == typed) else {
                return Err(no_option(typed));
            };
            if !SEVERAL.contains(&name) && options.iter().any(|&(other, _)| other == name) {
                return Err(Fault::usage(format!("{name} is given twice")));
            }
            let value = match value {
                Some(_) if ALONE.contains(&name) => {
                    return Err(Fault::usage(format!("{name} has no value")));
                }
                Some(value) => OsStr::from_bytes(value).to_os_string(),
                None if ALONE.contains(&name) => OsString::new(),
                None => match words.next() {
                    Some(value) => value.clone(),
                    None => return Err(Fault::usage(format!("{name} needs a value"))),
                },
            };
            options.push((name, value));
        }
        Ok(Words { options, plain })
    }

    /// The value of an option, if it was given.
    pub fn option<T>(
        &self,
        name: &str,
        meaning: fn(&OsStr) -> Result<T, String>,
    ) -> Result<Option<T>, Fault> {
        match self.options.iter().find(|&&(other, _)| other == name) {
            Some((_, value)) => meaning(value)
                .map(Some)
                .map_err(|why| wrong(name, value, &why)),
            None => Ok(None),
        }
    }

    /// The values of an option that may be given several times.
    pub fn every<T>(
        &self,
        name: &str,
        meaning: fn(&OsStr) -> Result<T, String>,
    ) -> Result<Vec<T>, Fault> {
        let of_it = self.options.iter().filter(|&&(other, _)| other == name);
        let value =
            |(_, value): &(_, OsString)| meaning(value).map_err(|why| wrong(name, value, &why));
        of_it.map(value).collect()
    }

    /// Whether an option was given.
    pub fn given(&self, name: &str) -> bool {
        self.options.iter().any(|&(other, _)| other == name)
    }

    /// The plain words: one file or two, and then so many others.
    pub fn files<const N: usize>(self, usage: &str) -> Result<(Files, [OsString; N]), Fault> {
        let wrong = || Fault::usage(format!("the command is {usage}"));
        let mut files = self.plain;
        let others = files.split_off(files.len().saturating_sub(N));
        let others = others.try_into().map_err(|_| wrong())?;
        let mut files = files.into_iter().map(PathBuf::from);
        match (files.next(), files.next(), files.next()) {
            (Some(file), None, _) => Ok((Files::One(file), others)),
            (Some(first), Some(second), None) => Ok((Files::Two([first, second]), others)),
            _ => Err(wrong()),
        }
    }

    /// The plain words, which have to be so many.
    pub fn plain<const N: usize>(self, usage: &str) -> Result<[OsString; N], Fault> {
        self.plain
            .try_into()
            .map_err(|_| Fault::usage(format!("the command is {usage}")))
    }
}

/// An option's name, and its value where that is in the same word.
fn name_and_value(word: &[u8]) -> (&[u8], Option<&[u8]>) {
    match (word, word.iter().position(|&byte| byte == b'=')) {
        ([b'-', letter, value @ ..], _) if *letter != b'-' && !value.is_empty() => {
            (&word[..2], Some(value))
        }
        (_, Some(end)) => (&word[..end], Some(&word[end + 1..])),
        (_, None) => (word, None),
    }
}

/// A command has no such option.
fn no_option(typed: &[u8]) -> Fault {
    match typed {
        b"--plain" => Fault::usage("--plain stands before the command"),
        _ => Fault::usage(format!("no option {}", shown(typed))),
    }
}

/// What is the matter with a value.
pub fn wrong(name: &str, value: &OsStr, why: &str) -> Fault {
    Fault::usage(format!("{name} {}: {why}", shown(value.as_bytes())))
}
