//! Mutations for refusal 6.
use crate::generator::dice::{between, once_in, pick};
use crate::generator::rendered::Rendered;
use crate::random::Random;
use reading::image::{Image, Object};
use reading::layout::{header, kind, Layout};
use reading::refusal::clause::*;

pub fn mutate(clause: Clause, random: &mut Random, made: &mut Rendered) -> bool {
    let objects = Image::walked(&made.image).objects;
    let tail = *objects.last().expect("two tables");
    let header_size = made.draft.header_size;
    match clause {
        TAIL_ZERO => made.set(header::TAIL_OBJECT_OFFSET, 0),
        TAIL_IN_HEADER => {
            let (last, near) = (header_size - 8, header_size - 1);
            let at = pick(random, &[1, 8, 16, 136, 248, 255, last, near]);
            made.set(header::TAIL_OBJECT_OFFSET, at);
        }
        TAIL_IN_OBJECT => {
            let object = pick(random, &objects);
            let into = between(random, 1, object.next() as u64 - object.offset - 1);
            let into = if into > 8 && once_in(random, 2) {
                into / 8 * 8
            } else {
                into
            };
            made.set(header::TAIL_OBJECT_OFFSET, object.offset + into);
        }
        TAIL_PAST_END => {
            let end = if once_in(random, 2) {
                tail.next() as u64
            } else {
                made.arena_end
            };
            made.set(header::ARENA_SIZE, end - header_size);
            let over = pick(
                random,
                &[0, 1, 8, 16, 1 << 40, u64::MAX - end, u64::MAX - end - 7],
            );
            made.set(header::TAIL_OBJECT_OFFSET, end + over);
        }
        OBJECT_PASSES_END => passes(random, made, &objects),
        OBJECT_HEADER_PASSES_END => {
            let object = pick(random, &objects);
            made.set(header::ARENA_SIZE, object.offset + 8 - header_size);
            if once_in(random, 2) {
                made.set(header::TAIL_OBJECT_OFFSET, object.offset);
            }
        }
        TYPE_ZERO => {
            let object = pick(random, &objects);
            made.set_byte(object.offset, 0);
        }
        FLAG_BIT_0 | FLAG_BIT_1 | FLAG_BIT_2 => {
            let bit = [FLAG_BIT_0, FLAG_BIT_1, FLAG_BIT_2]
                .iter()
                .position(|&other| other == clause);
            let object = pick(random, &objects);
            made.image[object.offset as usize + 1] |= 1 << bit.expect("one of three");
        }
        _ => return wrong_size(clause, random, made, &objects),
    }
    true
}

/// An object reaches over the arena's end: by its size, or by a shorter arena.
fn passes(random: &mut Random, made: &mut Rendered, objects: &[Object]) {
    let object = if once_in(random, 2) {
        objects[objects.len() - 1]
    } else {
        pick(random, objects)
    };
    if once_in(random, 2) {
        let end = object.next() as u64 - 8;
        made.set(header::ARENA_SIZE, end - made.draft.header_size);
    } else {
        let left = made.arena_end - object.offset;
        let size = pick(
            random,
            &[
                left + 1,
                left + 8,
                left + 16,
                1 << 63,
                u64::MAX,
                u64::MAX - 6,
                u64::MAX - 7,
            ],
        );
        made.set(object.offset + 8, size);
        if once_in(random, 2) {
            made.set_byte(
                object.offset,
                pick(random, &[kind::DATA, kind::FIELD, 8, 255]),
            );
        }
    }
}

/// The kinds and wrong sizes of the clauses on sizes.
fn sizes(clause: Clause, layout: Layout, random: &mut Random) -> Option<(u8, u64)> {
    let compact = layout == Layout::Compact;
    let foreign = between(random, 8, 255) as u8;
    let odd = between(random, 1, 15);
    let small = between(random, 1, 7);
    let (kind, sizes): (u8, Vec<u64>) = match clause {
        DATA_BELOW if compact => (kind::DATA, vec![0, 16, 64, 65, 71, 72]),
        DATA_BELOW => (kind::DATA, vec![0, 16, 63, 64]),
        FIELD_BELOW => (kind::FIELD, vec![0, 16, 39, 40]),
        ENTRY_BELOW if compact => (kind::ENTRY, vec![0, 16, 60, 63, 64, 65, 67]),
        ENTRY_NOT_ITEMS if compact => (kind::ENTRY, vec![69, 70, 71, 73, 79, 81, 82, 83]),
        ENTRY_BELOW => (kind::ENTRY, vec![0, 16, 63, 64, 72, 79]),
        ENTRY_NOT_ITEMS => (kind::ENTRY, vec![80 + odd, 88, 81, 95]),
        DATA_TABLE_BELOW => (kind::DATA_HASH_TABLE, vec![0, 8, 15, 16, 24, 31]),
        DATA_TABLE_NOT_CELLS => (kind::DATA_HASH_TABLE, vec![32 + odd, 40, 33, 47]),
        FIELD_TABLE_BELOW => (kind::FIELD_HASH_TABLE, vec![0, 8, 15, 16, 24, 31]),
        FIELD_TABLE_NOT_CELLS => (kind::FIELD_HASH_TABLE, vec![32 + odd, 40, 33, 47]),
        ARRAY_BELOW if compact => (kind::ENTRY_ARRAY, vec![0, 8, 16, 20, 23, 24, 25, 27]),
        ARRAY_NOT_ITEMS if compact => (kind::ENTRY_ARRAY, vec![29, 30, 31, 33, 34, 39]),
        ARRAY_BELOW => (kind::ENTRY_ARRAY, vec![0, 8, 16, 23, 24, 31]),
        ARRAY_NOT_ITEMS => (kind::ENTRY_ARRAY, vec![32 + small, 33, 39]),
        TAG_NOT_64 => (kind::TAG, vec![0, 16, 32, 56, 63, 65, 71, 72, 80]),
        FOREIGN_BELOW => (foreign, vec![0, 1, 7, 8, 9, 15]),
        _ => return None,
    };
    Some((kind, pick(random, &sizes)))
}

/// A wrong size: of an object of the kind where it stands (or with the walk ended there), or
/// of the tail object, made one of the kind.
fn wrong_size(
    clause: Clause,
    random: &mut Random,
    made: &mut Rendered,
    objects: &[Object],
) -> bool {
    let Some((kind, size)) = sizes(clause, made.draft.layout, random) else {
        return false;
    };
    let of_kind: Vec<Object> = objects
        .iter()
        .copied()
        .filter(|object| object.kind == kind)
        .collect();
    if !of_kind.is_empty() && once_in(random, 2) {
        let object = pick(random, &of_kind);
        made.set(object.offset + 8, size);
        if once_in(random, 2) {
            made.set(header::TAIL_OBJECT_OFFSET, object.offset);
        }
        return true;
    }
    let tail = objects[objects.len() - 1];
    made.set_byte(tail.offset, kind);
    made.set(tail.offset + 8, size);
    tail.offset + size <= made.arena_end
}
