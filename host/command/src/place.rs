//! Where a fault stands: in the header, in an object or at an entry of the file. A person has it in
//! words, a colleague by the format's names.
use crate::image::{is_compact, word, SIZE};
use crate::plain;
use crate::text::start;
use wrapper::{Offset, Place};

/// The types of objects: what a person calls them, and what the format does.
const KINDS: [(&str, &str); 8] = [
    ("object of no type", "UNUSED"),
    ("field value", "DATA"),
    ("field name", "FIELD"),
    ("entry", "ENTRY"),
    ("hash table of the field values", "DATA_HASH_TABLE"),
    ("hash table of the field names", "FIELD_HASH_TABLE"),
    ("entry array", "ENTRY_ARRAY"),
    ("tag", "TAG"),
];

pub const DATA: u8 = 1;
pub const FIELD: u8 = 2;
pub const ENTRY: u8 = 3;
pub const DATA_HASH_TABLE: u8 = 4;
pub const FIELD_HASH_TABLE: u8 = 5;
pub const ENTRY_ARRAY: u8 = 6;
pub const TAG: u8 = 7;

/// From where on a FIELD has its name, and a DATA its payload.
const NAME: usize = 40;
const PAYLOAD: usize = 64;
const COMPACT_PAYLOAD: usize = 72;

/// The type of the object at an offset.
pub fn kind(image: &[u8], Offset(at): Offset) -> u8 {
    image[at as usize]
}

/// What a person calls such an object.
pub fn called(kind: u8) -> String {
    match KINDS.get(usize::from(kind)) {
        Some((called, _)) => called.to_string(),
        None => format!("object of type {kind}"),
    }
}

/// The format's name of its type; the number of one that it does not know.
pub fn name(image: &[u8], at: Offset) -> String {
    let kind = kind(image, at);
    match KINDS.get(usize::from(kind)) {
        Some((_, name)) => name.to_string(),
        None => kind.to_string(),
    }
}

/// The object in words, by its type alone: its length may be wrong.
pub fn object(image: &[u8], at: Offset) -> String {
    format!("the {} at offset {}", called(kind(image, at)), at.0)
}

/// The object in words with what it holds, where 6 let all objects pass.
pub fn holding(image: &[u8], at: Offset) -> String {
    let object = object(image, at);
    match kind(image, at) {
        DATA | FIELD => format!("{object} ({})", start(text(image, at))),
        ENTRY => {
            let seqnum = plain::at(image, at).seqnum;
            format!("{object} (sequence number {seqnum})")
        }
        _ => object,
    }
}

/// The payload of a DATA or the name of a FIELD, as it stands there.
pub fn text(image: &[u8], at: Offset) -> &[u8] {
    let from = match (kind(image, at), is_compact(image)) {
        (FIELD, _) => NAME,
        (_, false) => PAYLOAD,
        (_, true) => COMPACT_PAYLOAD,
    };
    let object = &image[at.0 as usize..][..word(image, at.0 + SIZE) as usize];
    &object[from..]
}

/// A place for a colleague, on a line.
pub fn line(image: &[u8], place: Place) -> String {
    match place {
        Place::Header => "the header".to_string(),
        Place::Object(at) => format!("offset {}, {}", at.0, name(image, at)),
        Place::Position(index) => entry(index),
    }
}

/// An entry as a person counts.
pub fn entry(index: u64) -> String {
    format!("entry number {} of the file", index + 1)
}
