//! Mutations for refusal 11: words that hold wrong hashes, and drafts with all hashes mended
//! whose chains and lists are not as they should be.
use crate::generator::dice::{once_in, pick};
use crate::generator::draft::{Data, Draft, Field, Item, Part};
use crate::generator::render::render;
use crate::generator::rendered::{hash, Rendered};
use crate::random::Random;
use reading::image::name_of;
use reading::layout::{data, entry, field, Layout};
use reading::refusal::clause::*;

pub fn mutate(clause: Clause, random: &mut Random, made: &mut Rendered) -> bool {
    match clause {
        DATA_HASH | FIELD_HASH | ITEM_HASH | XOR_HASH => words(clause, random, made),
        OTHER_NAME_CHAINED | OTHER_NAME_OFF => other_name(clause, random, made),
        _ => {
            let mut draft = made.draft.clone();
            let possible = drawn(clause, random, &mut draft);
            *made = render(&draft, random);
            possible
        }
    }
}

/// A wrong hash: one bit, 0, or the other hash of the same bytes.
fn words(clause: Clause, random: &mut Random, made: &mut Rendered) -> bool {
    let parts = made.draft.in_order(|part| {
        matches!(
            (clause, part),
            (DATA_HASH, Part::Data(_))
                | (FIELD_HASH, Part::Field(_))
                | (ITEM_HASH | XOR_HASH, Part::Entry(_))
        )
    });
    // "11 has no item hash there"
    let hashless = clause == ITEM_HASH && made.draft.layout == Layout::Compact;
    if parts.is_empty() || hashless {
        return false;
    }
    if clause == XOR_HASH && made.draft.keyed && once_in(random, 2) {
        made.draft.keyed_xor = true;
        *made = render(&made.draft.clone(), random);
        return true;
    }
    let part = pick(random, &parts);
    let at = made.offsets[part]
        + match clause {
            DATA_HASH => data::HASH,
            FIELD_HASH => field::HASH,
            ITEM_HASH => {
                entry::ITEMS + 8 + 16 * random.below(made.draft.entry(part).items.len()) as u64
            }
            _ => entry::XOR_HASH,
        };
    let is = made.word(at);
    let flipped = is ^ 1 << random.below(64);
    let mut value = pick(random, &[flipped, 0, is.rotate_left(32)]);
    if clause == DATA_HASH && once_in(random, 3) {
        let mut other = made.draft.clone();
        other.keyed = !other.keyed;
        value = hash(&other, &made.draft.data(part).payload);
    }
    made.set(at, value);
    value != is
}

/// A FIELD whose list begins at a DATA of another name.
fn other_name(clause: Clause, random: &mut Random, made: &mut Rendered) -> bool {
    let parts = made.draft.in_order(|part| match part {
        Part::Field(field) => field.chained.is_some() == (clause == OTHER_NAME_CHAINED),
        _ => false,
    });
    if parts.is_empty() {
        return false;
    }
    let part = pick(random, &parts);
    let Part::Field(field) = made.draft.parts[part].clone() else {
        return false;
    };
    let others = made.draft.in_order(|part| match part {
        Part::Data(data) => name_of(&data.payload) != Some(&field.name),
        _ => false,
    });
    if others.is_empty() {
        return false;
    }
    let to = made.offsets[pick(random, &others)];
    made.set(made.offsets[part] + field::HEAD_DATA_OFFSET, to);
    true
}

fn new_data(payload: &[u8], chained: Option<u64>) -> Part {
    let entry_offset = Item::Raw(0);
    Part::Data(Data {
        payload: payload.to_vec(),
        chained,
        listed: false,
        entry_offset,
        entry_array: None,
        n_entries: 0,
    })
}

/// Drawn wrong, with all hashes right.
fn drawn(clause: Clause, random: &mut Random, draft: &mut Draft) -> bool {
    let place = random.below(draft.order.len() + 1);
    let data = draft.in_order(|part| matches!(part, Part::Data(_)));
    let fields = draft.in_order(|part| matches!(part, Part::Field(_)));
    let held: Vec<usize> = data
        .iter()
        .copied()
        .filter(|&part| !draft.holders(part).is_empty())
        .collect();
    match clause {
        NO_EQUALS_SIGN | NOTHING_BEFORE => {
            let payload: &[u8] = if clause == NO_EQUALS_SIGN {
                b"MESSAGE"
            } else {
                b"=MESSAGE="
            };
            let chained = if once_in(random, 2) { Some(0) } else { None };
            if data.is_empty() || once_in(random, 2) {
                draft.add(new_data(payload, chained), place);
            } else {
                draft.data_mut(pick(random, &data)).payload = payload.to_vec();
            }
        }
        DATA_WRONG_CELL => {
            if draft.data_cells < 2 {
                return false;
            }
            let further = 1 + random.below(draft.data_cells as usize - 1) as u64;
            draft.add(new_data(b"OTHER=1", Some(further)), place);
        }
        FIELD_WRONG_CELL => {
            if draft.field_cells < 2 {
                return false;
            }
            let further = 1 + random.below(draft.field_cells as usize - 1) as u64;
            let name = b"OTHER".to_vec();
            draft.add(
                Part::Field(Field {
                    name,
                    chained: Some(further),
                    heads: true,
                }),
                place,
            );
        }
        EQUAL_PAYLOADS => {
            if data.is_empty() {
                return false;
            }
            let payload = draft.data(pick(random, &data)).payload.clone();
            draft.add(new_data(&payload, Some(0)), place);
        }
        EQUAL_NAMES => {
            if fields.is_empty() {
                return false;
            }
            let part = pick(random, &fields);
            let name = draft.field_mut(part).name.clone();
            let heads = once_in(random, 2);
            draft.add(
                Part::Field(Field {
                    name,
                    chained: Some(0),
                    heads,
                }),
                place,
            );
        }
        MISSING_FROM_CELL | MISSING_FROM_LIST => {
            if held.is_empty() {
                return false;
            }
            let it = draft.data_mut(pick(random, &held));
            if clause == MISSING_FROM_LIST {
                it.listed = false;
            } else {
                it.chained = None;
            }
        }
        NO_FIELD => {
            if held.is_empty() {
                return false;
            }
            let payload = draft.data(pick(random, &held)).payload.clone();
            for part in fields {
                let it = draft.field_mut(part);
                if name_of(&payload) == Some(&it.name) {
                    it.chained = None;
                    it.heads = once_in(random, 2);
                }
            }
        }
        _ => return false,
    }
    true
}
