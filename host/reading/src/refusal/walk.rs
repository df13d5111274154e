//! Refusal 6.
use super::clause::*;
use super::fault::{Fault, HEADER};
use crate::image::{arena_end, first_object, layout, le64, Object};
use crate::layout::{array, entry, header, kind, Layout};

/// 6: the walk from the header's end, "stopped once past tail_object_offset, misses it (0
/// included); an object passes the arena's end; type 0; one of flag bits 0 to 2 set; a size wrong".
///
/// Every object from the header's end up to and including the one at tail_object_offset is judged, and
/// nothing after it. "a walk that misses the tail, at the arena's end too, names the last object walked,
/// or 0".
pub fn six(bytes: &[u8], found: &mut Vec<Fault>) {
    let tail_object_offset = le64(bytes, header::TAIL_OBJECT_OFFSET);
    if tail_object_offset == 0 {
        found.push(TAIL_ZERO.at(HEADER));
        return;
    }
    if tail_object_offset < first_object(bytes) {
        found.push(TAIL_IN_HEADER.at(HEADER));
        return;
    }
    let last_walked = walk(bytes, tail_object_offset, found);
    if tail_object_offset as u128 >= arena_end(bytes) {
        found.push(TAIL_PAST_END.at(last_walked));
    }
}

/// Judges the objects one after the other. The last one walked, 0 if there is none.
fn walk(bytes: &[u8], tail_object_offset: u64, found: &mut Vec<Fault>) -> u64 {
    let arena_end = arena_end(bytes);
    let mut last_walked = HEADER;
    let mut offset = first_object(bytes);
    while offset <= tail_object_offset && (offset as u128) < arena_end {
        last_walked = offset;
        if offset as u128 + 16 > arena_end {
            found.push(OBJECT_HEADER_PASSES_END.at(offset));
            break;
        }
        let object = Object::read(bytes, offset);
        judge(&object, layout(bytes), found);
        let next = object.next();
        if offset < tail_object_offset && (tail_object_offset as u128) < next {
            found.push(TAIL_IN_OBJECT.at(offset));
        }
        if object.offset as u128 + object.size as u128 > arena_end {
            found.push(OBJECT_PASSES_END.at(offset));
            break;
        }
        if next == offset as u128 {
            // A size of 0: the walk stands still. Every type refuses this size.
            assert!(!found.is_empty());
            break;
        }
        offset = next as u64;
    }
    last_walked
}

/// Type, flags and size of one object. "6 takes the compact sizes (DATA from 73, ENTRY from 68, array
/// from 28)": each has room for one byte of payload, or one item.
fn judge(object: &Object, layout: Layout, found: &mut Vec<Fault>) {
    if object.kind == 0 {
        found.push(TYPE_ZERO.at(object.offset));
    }
    for (bit, clause) in [FLAG_BIT_0, FLAG_BIT_1, FLAG_BIT_2].into_iter().enumerate() {
        if object.flags >> bit & 1 == 1 {
            found.push(clause.at(object.offset));
        }
    }
    let size = object.size;
    let mut wrong = |is: bool, clause: Clause| {
        if is {
            found.push(clause.at(object.offset));
        }
    };
    match object.kind {
        0 => {}
        kind::DATA => wrong(size < layout.data_size(1), DATA_BELOW),
        kind::FIELD => wrong(size < 41, FIELD_BELOW),
        kind::ENTRY => {
            let item = layout.entry_item();
            wrong(size < layout.entry_size(1), ENTRY_BELOW);
            wrong(
                !is_head_and_parts(size, entry::ITEMS, item),
                ENTRY_NOT_ITEMS,
            );
        }
        kind::DATA_HASH_TABLE => {
            wrong(size < 32, DATA_TABLE_BELOW);
            wrong(!is_head_and_parts(size, 16, 16), DATA_TABLE_NOT_CELLS);
        }
        kind::FIELD_HASH_TABLE => {
            wrong(size < 32, FIELD_TABLE_BELOW);
            wrong(!is_head_and_parts(size, 16, 16), FIELD_TABLE_NOT_CELLS);
        }
        kind::ENTRY_ARRAY => {
            let item = layout.array_item();
            wrong(size < layout.array_size(1), ARRAY_BELOW);
            wrong(
                !is_head_and_parts(size, array::ITEMS, item),
                ARRAY_NOT_ITEMS,
            );
        }
        kind::TAG => wrong(size != 64, TAG_NOT_64),
        _ => wrong(size < 16, FOREIGN_BELOW),
    }
}

/// Whether a size is head + part * n for some n of 0 and up.
fn is_head_and_parts(size: u64, head: u64, part: u64) -> bool {
    size >= head && (size - head) % part == 0
}
