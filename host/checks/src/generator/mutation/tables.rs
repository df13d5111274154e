//! Mutations for refusal 7.
use crate::generator::dice::{between, edge, once_in, pick};
use crate::generator::draft::Part;
use crate::generator::rendered::{size, Rendered};
use crate::random::Random;
use reading::layout::{header, kind};
use reading::refusal::clause::*;

pub fn mutate(clause: Clause, random: &mut Random, made: &mut Rendered) -> bool {
    match clause {
        FEWER_THAN_TWO => made.set(header::TAIL_OBJECT_OFFSET, made.draft.header_size),
        FIRST_TWO => first_two(random, made),
        LATER_DATA_TABLE => return later(random, made, kind::DATA_HASH_TABLE),
        LATER_FIELD_TABLE => return later(random, made, kind::FIELD_HASH_TABLE),
        DATA_TABLE_OFFSET => other(random, made, header::DATA_HASH_TABLE_OFFSET),
        DATA_TABLE_SIZE => other(random, made, header::DATA_HASH_TABLE_SIZE),
        FIELD_TABLE_OFFSET => other(random, made, header::FIELD_HASH_TABLE_OFFSET),
        FIELD_TABLE_SIZE => other(random, made, header::FIELD_HASH_TABLE_SIZE),
        _ => return false,
    }
    true
}

/// One of the first two becomes a second table of the other's kind, an array or a foreign
/// object; each takes the size of a table.
fn first_two(random: &mut Random, made: &mut Rendered) {
    let foreign = between(random, 8, 255) as u8;
    let (one, other) = (made.data_table, made.field_table);
    match random.below(4) {
        0 => made.set_byte(one, kind::FIELD_HASH_TABLE),
        1 => made.set_byte(other, kind::DATA_HASH_TABLE),
        2 => made.set_byte(
            pick(random, &[one, other]),
            pick(random, &[kind::ENTRY_ARRAY, foreign]),
        ),
        _ => {
            made.set_byte(one, foreign);
            made.set_byte(other, kind::ENTRY_ARRAY);
        }
    }
}

/// An ENTRY has the size of a table of more cells, in a compact file with every fourth number of items;
/// the tail object can be cut to one.
fn later(random: &mut Random, made: &mut Rendered, kind: u8) -> bool {
    let layout = made.draft.layout;
    let entries = made
        .draft
        .in_order(|part| matches!(part, Part::Entry(_)) && size(layout, part) % 16 == 0);
    if !entries.is_empty() && once_in(random, 2) {
        let entry = pick(random, &entries);
        made.set_byte(made.offsets[entry], kind);
        return true;
    }
    if made.draft.parts.is_empty() || made.word(made.tail + 8) < 32 {
        return false;
    }
    made.set_byte(made.tail, kind);
    made.set(made.tail + 8, 32);
    true
}

/// Another value: "Table offsets taken as those of the object, 16 bytes early", the other
/// table's, or one at an edge.
fn other(random: &mut Random, made: &mut Rendered, at: u64) {
    let is = made.word(at);
    let mut value = is;
    while value == is {
        value = match random.below(4) {
            0 => is - 16,
            1 => made.word(pick(random, &[104, 112, 120, 128])),
            2 => is + 8,
            _ => edge(random, is),
        };
    }
    made.set(at, value);
}
