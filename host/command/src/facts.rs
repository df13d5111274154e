//! `why`: the bare facts on a refused file, one a line, for tools and the help desk; and the lines that
//! `check` has of them after its sentence.
use crate::fault::Fault;
use crate::{files, json, place, why_file};
use std::ffi::OsStr;
use std::io::Write;
use std::os::unix::ffi::OsStrExt;
use std::path::Path;
use wrapper::{Place, Why, WrongHash};

/// How the facts are printed.
#[derive(Clone, Copy, PartialEq, Eq)]
pub enum Facts {
    Lines,
    Json,
}

impl Facts {
    pub fn typed(value: &OsStr) -> Result<Facts, String> {
        match value.as_bytes() {
            b"json" => Ok(Facts::Json),
            _ => Err("it is json".to_string()),
        }
    }
}

/// A file that is refused is no failure here: it is what was asked for.
pub fn why(file: &Path, form: Facts, out: &mut impl Write) -> Result<(), Fault> {
    let image = files::read(file)?;
    let facts = facts(&image);
    let text = match form {
        Facts::Lines => {
            let line = |(name, value): &(&str, String)| format!("{name} {value}\n");
            facts.iter().map(line).collect()
        }
        Facts::Json => format!("{}\n", json::pairs(&facts)),
    };
    out.write_all(text.as_bytes()).map_err(Fault::answer)
}

/// Each with its name. An image that opens has no place and no rule.
fn facts(image: &[u8]) -> Vec<(&'static str, String)> {
    let Some(why) = wrapper::why(image) else {
        return vec![("refusal", "0".to_string())];
    };
    let mut facts = vec![
        ("refusal", why.refusal.number().to_string()),
        ("rule", why.refusal.row().to_string()),
    ];
    match why.place {
        Place::Header => {
            facts.extend([("place", "0".to_string()), ("object", "header".to_string())])
        }
        Place::Object(at) => {
            facts.extend([
                ("place", at.0.to_string()),
                ("object", place::name(image, at)),
            ]);
        }
        Place::Position(index) => facts.push(("position", index.to_string())),
    }
    if let Some(WrongHash { stored, right }) = why.hash {
        facts.extend([("stored", hex(stored)), ("right", hex(right))]);
    }
    facts
}

/// What `check` says of an image that is refused: the sentence, and a line for each of the number with
/// the rule, the place, and the two hashes.
pub fn in_full(file: &Path, image: &[u8], why: &Why) -> Fault {
    let mut lines = vec![
        why.refusal.rule(),
        format!("place: {}", place::line(image, why.place)),
    ];
    if let Some(WrongHash { stored, right }) = why.hash {
        lines.push(format!("stored hash: {}", hex(stored)));
        lines.push(format!("right hash: {}", hex(right)));
    }
    Fault::in_full(file, &why_file::of(image, why), &lines)
}

/// A hash in its sixteen digits.
fn hex(hash: u64) -> String {
    format!("{hash:016x}")
}
