//! Why a file is refused by 6: which condition applies to the object that the library names, or that
//! its header names a last object that is none.
use crate::image::{is_compact, word, ARENA_SIZE, HEADER_SIZE, SIZE, TAIL_OBJECT_OFFSET};
use crate::place::{self, called, kind};
use crate::place::{DATA, DATA_HASH_TABLE, ENTRY, ENTRY_ARRAY, FIELD, FIELD_HASH_TABLE, TAG};
use crate::why_damaged::Damage;
use wrapper::{Offset, Place};

/// What is wrong, and what it means.
pub fn damage(image: &[u8], place: Place) -> Damage {
    let tail = word(image, TAIL_OBJECT_OFFSET);
    let missed = format!("its header has the last object at offset {tail}, and none starts there");
    let end = "it can't be told where its results end";
    let Place::Object(at) = place else {
        return Damage::new(missed, end);
    };
    match object(image, at) {
        Some(what) => Damage::new(what, "nothing from there on can be found"),
        None => {
            let last = place::object(image, at);
            Damage::new(format!("{missed} (the last one found is {last})"), end)
        }
    }
}

/// What is wrong with one object, if something is.
fn object(image: &[u8], at: Offset) -> Option<String> {
    let left = word(image, HEADER_SIZE) + word(image, ARENA_SIZE) - at.0;
    if left < 16 {
        return Some(format!(
            "at offset {}, where an object has to start, only {left} bytes are left",
            at.0
        ));
    }
    let (kind, object) = (kind(image, at), place::object(image, at));
    let (flags, size) = (image[at.0 as usize + 1], word(image, at.0 + SIZE));
    if kind == 0 {
        let at = at.0;
        Some(format!("no object stands at offset {at}, where one has to"))
    } else if flags & 7 != 0 {
        Some(format!(
            "{object} says that it is compressed, and the header that none is"
        ))
    } else if size > left {
        Some(format!(
            "{object} says that it has {size} bytes, and {left} are left there"
        ))
    } else if !has_size(kind, size, is_compact(image)) {
        let called = called(kind);
        Some(format!(
            "{object} says that it has {size} bytes, as no {called} has"
        ))
    } else {
        None
    }
}

/// Whether objects of a type have such a size, as the row of 6 has it.
fn has_size(kind: u8, size: u64, compact: bool) -> bool {
    let of_parts = |head: u64, part: u64| size >= head + part && (size - head).is_multiple_of(part);
    match (kind, compact) {
        (DATA, false) => size >= 65,
        (DATA, true) => size >= 73,
        (FIELD, _) => size >= 41,
        (ENTRY, false) => of_parts(64, 16),
        (ENTRY, true) => of_parts(64, 4),
        (DATA_HASH_TABLE | FIELD_HASH_TABLE, _) => of_parts(16, 16),
        (ENTRY_ARRAY, false) => of_parts(24, 8),
        (ENTRY_ARRAY, true) => of_parts(24, 4),
        (TAG, _) => size == 64,
        _ => size >= 16,
    }
}
