//! Refusal 7.
use super::clause::*;
use super::fault::{Fault, HEADER};
use crate::image::Image;
use crate::layout::{header, kind};

/// 7: "the first two objects are not one data and one field table, a later table stands, or
/// the header does not give the tables' payload offset and size". The two stand in either
/// order. The place is the header, whichever of these it is.
pub fn seven(image: &Image, found: &mut Vec<Fault>) {
    for object in image.objects.iter().skip(2) {
        if object.kind == kind::DATA_HASH_TABLE {
            found.push(LATER_DATA_TABLE.at(HEADER));
        }
        if object.kind == kind::FIELD_HASH_TABLE {
            found.push(LATER_FIELD_TABLE.at(HEADER));
        }
    }
    if image.objects.len() < 2 {
        found.push(FEWER_THAN_TWO.at(HEADER));
        return;
    }
    let (first, second) = (image.objects[0], image.objects[1]);
    let (data, field) = match (first.kind, second.kind) {
        (kind::DATA_HASH_TABLE, kind::FIELD_HASH_TABLE) => (first, second),
        (kind::FIELD_HASH_TABLE, kind::DATA_HASH_TABLE) => (second, first),
        _ => {
            found.push(FIRST_TWO.at(HEADER));
            return;
        }
    };
    for (at, value, clause) in [
        (
            header::DATA_HASH_TABLE_OFFSET,
            data.offset + 16,
            DATA_TABLE_OFFSET,
        ),
        (
            header::DATA_HASH_TABLE_SIZE,
            data.size - 16,
            DATA_TABLE_SIZE,
        ),
        (
            header::FIELD_HASH_TABLE_OFFSET,
            field.offset + 16,
            FIELD_TABLE_OFFSET,
        ),
        (
            header::FIELD_HASH_TABLE_SIZE,
            field.size - 16,
            FIELD_TABLE_SIZE,
        ),
    ] {
        if image.word(at) != value {
            found.push(clause.at(HEADER));
        }
    }
}
