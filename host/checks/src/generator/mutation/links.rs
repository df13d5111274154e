//! Mutations for refusal 8.
use crate::generator::dice::{once_in, pick};
use crate::generator::draft::Part;
use crate::generator::rendered::Rendered;
use crate::random::Random;
use reading::image::Image;
use reading::layout::{array, data, entry, field, header, kind, table, Layout};
use reading::refusal::clause::*;

pub fn mutate(clause: Clause, random: &mut Random, made: &mut Rendered) -> bool {
    let of = |kind: u8| -> Vec<u64> {
        Image::walked(&made.image)
            .of_kind(kind)
            .iter()
            .map(|object| object.offset)
            .collect()
    };
    let (holders, at, to) = match clause {
        HEADER_ARRAY => (vec![0], header::ENTRY_ARRAY_OFFSET, kind::ENTRY_ARRAY),
        ARRAY_NEXT_KIND | ARRAY_NEXT_ORDER => (
            of(kind::ENTRY_ARRAY),
            array::NEXT_ENTRY_ARRAY_OFFSET,
            kind::ENTRY_ARRAY,
        ),
        DATA_CELL_HEAD => {
            let cell = random.below(made.draft.data_cells as usize) as u64;
            (vec![made.data_table], table::CELLS + 16 * cell, kind::DATA)
        }
        FIELD_CELL_HEAD => {
            let cell = random.below(made.draft.field_cells as usize) as u64;
            (
                vec![made.field_table],
                table::CELLS + 16 * cell,
                kind::FIELD,
            )
        }
        DATA_NEXT_HASH_KIND | DATA_NEXT_HASH_ORDER => {
            (of(kind::DATA), data::NEXT_HASH_OFFSET, kind::DATA)
        }
        FIELD_NEXT_HASH_KIND | FIELD_NEXT_HASH_ORDER => {
            (of(kind::FIELD), field::NEXT_HASH_OFFSET, kind::FIELD)
        }
        HEAD_DATA_KIND => (of(kind::FIELD), field::HEAD_DATA_OFFSET, kind::DATA),
        NEXT_FIELD_KIND | NEXT_FIELD_ORDER => (of(kind::DATA), data::NEXT_FIELD_OFFSET, kind::DATA),
        ENTRY_OFFSET_KIND => (of(kind::DATA), data::ENTRY_OFFSET, kind::ENTRY),
        ENTRY_ARRAY_KIND => (of(kind::DATA), data::ENTRY_ARRAY_OFFSET, kind::ENTRY_ARRAY),
        _ => return items(clause, random, made),
    };
    if holders.is_empty() {
        return false;
    }
    let here = pick(random, &holders);
    let value = match clause {
        ARRAY_NEXT_ORDER | DATA_NEXT_HASH_ORDER | FIELD_NEXT_HASH_ORDER => pick(
            random,
            &holders
                .iter()
                .copied()
                .filter(|&other| other <= here)
                .collect::<Vec<_>>(),
        ),
        NEXT_FIELD_ORDER => pick(
            random,
            &holders
                .iter()
                .copied()
                .filter(|&other| other >= here)
                .collect::<Vec<_>>(),
        ),
        _ => wrong_target(random, made, to),
    };
    made.set(here + at, value);
    true
}

/// An offset, not 0, at which no walked object of the kind stands.
pub fn wrong_target(random: &mut Random, made: &Rendered, kind: u8) -> u64 {
    let image = Image::walked(&made.image);
    let end = image.objects[image.objects.len() - 1].next() as u64;
    loop {
        let object = pick(random, &image.objects);
        let value = match random.below(9) {
            0 => object.offset + 8,
            1 => object.offset + 1,
            2 => object.offset + 16,
            3 => pick(random, &[1, 8, 128, 248, 255]),
            4 => pick(
                random,
                &[
                    end,
                    made.arena_end,
                    made.arena_end - 8,
                    made.image.len() as u64,
                ],
            ),
            5 => pick(random, &[u64::MAX, u64::MAX - 7, 1 << 63, 1 << 32]),
            6 => object.offset | pick(random, &[1 << 32, 1 << 63]),
            _ => object.offset,
        };
        if value != 0 && !image.lands(value, kind) {
            return value;
        }
    }
}

/// The same for an item, of which a compact file has the low 32 bits.
pub fn wrong_item(random: &mut Random, made: &Rendered, kind: u8) -> u64 {
    loop {
        let value = match made.draft.layout {
            Layout::Regular => wrong_target(random, made, kind),
            Layout::Compact => wrong_target(random, made, kind) as u32 as u64,
        };
        if value != 0 && !Image::walked(&made.image).lands(value, kind) {
            return value;
        }
    }
}

/// Items of an ENTRY, committed or not.
fn items(clause: Clause, random: &mut Random, made: &mut Rendered) -> bool {
    let least = if matches!(clause, ITEMS_EQUAL | ITEMS_FALLING) {
        2
    } else {
        1
    };
    let entries = made
        .draft
        .in_order(|part| matches!(part, Part::Entry(entry) if entry.items.len() >= least));
    if entries.is_empty() {
        return false;
    }
    let part = pick(random, &entries);
    let n = made.draft.entry(part).items.len();
    let first = made.offsets[part] + entry::ITEMS;
    let item = made.draft.layout.entry_item();
    let at = first + item * random.below(n) as u64;
    let pair = first + item * random.below(n.max(2) - 1) as u64;
    match clause {
        ITEM_ZERO => made.set_item(at, 0),
        ITEM_KIND => {
            let value = wrong_item(random, made, kind::DATA);
            made.set_item(at, value);
        }
        ITEMS_EQUAL => {
            let (from, to) = if once_in(random, 2) {
                (pair, pair + item)
            } else {
                (pair + item, pair)
            };
            let (from, to) = (from as usize, to as usize);
            made.image.copy_within(from..from + item as usize, to);
        }
        ITEMS_FALLING => {
            made.image[pair as usize..(pair + 2 * item) as usize].rotate_left(item as usize);
        }
        _ => return false,
    }
    true
}
