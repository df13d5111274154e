//! Why a damaged file is refused, by what the library says of it: 6 to 11. What is wrong, where, what
//! that means for the results, and what to do.
use crate::place::{self, holding, kind, DATA, ENTRY, ENTRY_ARRAY, FIELD};
use crate::why_file::AGAIN;
use crate::{why_order, why_walk};
use wrapper::{Offset, Place, Why};

/// What is wrong, and what it means.
pub struct Damage {
    what: String,
    so_that: &'static str,
}

impl Damage {
    pub fn new(what: String, so_that: &'static str) -> Damage {
        Damage { what, so_that }
    }
}

/// A sentence for a person.
pub fn sentence(image: &[u8], why: &Why) -> Option<String> {
    let Damage { what, so_that } = damage(image, why)?;
    Some(format!(
        "the file is damaged, {what}, so that {so_that}, and none of its results is read: {AGAIN}"
    ))
}

fn damage(image: &[u8], why: &Why) -> Option<Damage> {
    match (why.refusal.number(), why.place) {
        (6, place) => Some(why_walk::damage(image, place)),
        (7, _) => Some(Damage::new(
            TABLES.to_string(),
            "its fields can't be looked up",
        )),
        (8, Place::Header) => {
            let what = "its header has the list of entries in a wrong place";
            Some(Damage::new(what.to_string(), "its entries can't be found"))
        }
        (8, Place::Object(at)) => Some(links(image, at)),
        (9, Place::Position(index)) => why_order::damage(image, index),
        (10, Place::Object(at)) => {
            let what = format!(
                "the list of the entries with {} is wrong",
                holding(image, at)
            );
            Some(Damage::new(what, SEARCHES))
        }
        (11, Place::Object(at)) => Some(match why.hash {
            Some(_) => hashes(image, at),
            None => index(image, at),
        }),
        _ => None,
    }
}

const TABLES: &str =
    "its two hash tables do not stand at its start as its header says, or there is a third";
const SEARCHES: &str = "searches could miss results or find wrong ones";

/// 8, of an object.
fn links(image: &[u8], at: Offset) -> Damage {
    let object = holding(image, at);
    match kind(image, at) {
        ENTRY => Damage::new(
            format!(
                "{object} has a field that is not there, or has its fields twice or out of order"
            ),
            "fields of this entry could be missing or wrong",
        ),
        ENTRY_ARRAY => Damage::new(
            format!("{object} leads to a wrong place"),
            "entries could be missing",
        ),
        _ => Damage::new(format!("{object} leads to a wrong place"), SEARCHES),
    }
}

/// 11, where a hash in the object is wrong.
fn hashes(image: &[u8], at: Offset) -> Damage {
    let object = holding(image, at);
    match kind(image, at) {
        DATA => Damage::new(
            format!("{object} does not fit its hash"),
            "this value may not be what was written",
        ),
        FIELD => Damage::new(
            format!("{object} does not fit its hash"),
            "this name may not be what was written",
        ),
        _ => Damage::new(
            format!("{object} does not fit the hashes of its fields"),
            "this entry may not be what was written",
        ),
    }
}

/// 11, where none is.
fn index(image: &[u8], at: Offset) -> Damage {
    let object = holding(image, at);
    let text = place::text(image, at);
    match text.iter().position(|&byte| byte == b'=') {
        None | Some(0) if kind(image, at) == DATA => Damage::new(
            format!("{object} has no name before a ="),
            "it can't be told which field it is of",
        ),
        _ => Damage::new(
            format!("the index has {object} in a wrong place, twice or not at all"),
            SEARCHES,
        ),
    }
}
