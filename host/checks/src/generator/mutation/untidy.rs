//! Mutations for refusals 12 to 14 and 25, which leave the image open.
use super::{late, tails};
use crate::generator::dice::{between, edge, once_in, pick};
use crate::generator::draft::{Array, Data, Draft, Entry, Field, Item, Part};
use crate::generator::render::render;
use crate::generator::rendered::Rendered;
use crate::random::Random;
use reading::layout::{header, table, TAIL_ENTRY_BOOT_ID};
use reading::refusal::clause::*;

/// Whether the mutation for a clause draws the image anew, so that words set before are lost.
pub fn redraws(clause: Clause) -> bool {
    matches!(
        clause,
        BOOT_BIT_WITHOUT_272
            | HEADER_OF_264
            | COUNTER_ENTRIES
            | DATA_OFF_CHAIN
            | DATA_OFF_LIST
            | FIELD_OFF_CHAIN
            | DATA_WITHOUT_FIELD
            | COUNTED_ABOVE
            | ARRAY_TWICE
    )
}

/// Mutates a tidy image for a clause.
pub fn mutate(clause: Clause, random: &mut Random, made: &mut Rendered) -> bool {
    let at = match clause {
        COMPATIBLE_BIT => {
            let bit = pick(random, &[0, 2, 3, 4, 7, 8, 9, 15, 16, 17, 24, 25, 31]);
            made.image[8 + bit / 8] |= 1 << (bit % 8);
            return true;
        }
        TAIL_ARRAY | TAIL_ARRAY_COUNT | TAIL_ENTRY => return late::mutate(clause, random, made),
        DATA_TAIL_ARRAY | DATA_TAIL_COUNT => return tails::mutate(clause, random, made),
        NOT_OFFLINE => {
            made.set_byte(header::STATE, pick(random, &[1, 2, 128, 255]));
            return true;
        }
        COUNTER_OBJECTS => header::N_OBJECTS,
        COUNTER_DATA => header::N_DATA,
        COUNTER_FIELDS => header::N_FIELDS,
        COUNTER_TAGS => header::N_TAGS,
        COUNTER_ARRAYS => header::N_ENTRY_ARRAYS,
        HEAD_SEQNUM => header::HEAD_ENTRY_SEQNUM,
        TAIL_SEQNUM => header::TAIL_ENTRY_SEQNUM,
        HEAD_REALTIME => header::HEAD_ENTRY_REALTIME,
        TAIL_REALTIME => header::TAIL_ENTRY_REALTIME,
        TAIL_MONOTONIC if made.draft.committed.is_empty() => return false,
        TAIL_MONOTONIC => header::TAIL_ENTRY_MONOTONIC,
        DATA_CELL_TAIL => cell_tail(random, made.data_table, made.draft.data_cells),
        FIELD_CELL_TAIL => cell_tail(random, made.field_table, made.draft.field_cells),
        _ => {
            let mut draft = made.draft.clone();
            let possible = drawn(clause, random, &mut draft);
            *made = render(&draft, random);
            return possible;
        }
    };
    let is = made.word(at);
    let mut value = is;
    while value == is {
        let object = if made.offsets.is_empty() {
            288
        } else {
            pick(random, &made.offsets)
        };
        value = if once_in(random, 4) {
            object
        } else {
            edge(random, is)
        };
    }
    made.set(at, value);
    true
}

fn cell_tail(random: &mut Random, table: u64, cells: u64) -> u64 {
    table + table::CELLS + 16 * random.below(cells as usize) as u64 + 8
}

/// Drawn so that the image opens and an append is refused.
fn drawn(clause: Clause, random: &mut Random, draft: &mut Draft) -> bool {
    let place = random.below(draft.order.len() + 1);
    let data = draft.in_order(|part| matches!(part, Part::Data(_)));
    let unheld: Vec<usize> = data
        .iter()
        .copied()
        .filter(|&part| draft.holders(part).is_empty())
        .collect();
    let new_data = |payload: &[u8], chained: bool, listed: bool| {
        let chained = if chained { Some(0) } else { None };
        let entry_offset = Item::Raw(0);
        Part::Data(Data {
            payload: payload.to_vec(),
            chained,
            listed,
            entry_offset,
            entry_array: None,
            n_entries: 0,
        })
    };
    let new_field = |chained: bool| {
        let chained = if chained { Some(0) } else { None };
        Part::Field(Field {
            name: b"OTHER".to_vec(),
            chained,
            heads: true,
        })
    };
    match clause {
        BOOT_BIT_WITHOUT_272 => {
            if draft.header_size == 272 {
                draft.header_size = pick(random, &[256, 264]);
            }
            draft.compatible_flags |= TAIL_ENTRY_BOOT_ID;
        }
        HEADER_OF_264 => {
            draft.header_size = 264;
            draft.compatible_flags &= !TAIL_ENTRY_BOOT_ID;
        }
        COUNTER_ENTRIES => {
            // An ENTRY that is not committed: it stands, and n_entries does not count it.
            if data.is_empty() {
                return false;
            }
            let items = vec![pick(random, &data)];
            let (seqnum, realtime, monotonic) = (random.word(), random.word(), random.word());
            draft.add(
                Part::Entry(Entry {
                    seqnum,
                    realtime,
                    monotonic,
                    boot_id: [0; 16],
                    items,
                }),
                place,
            );
        }
        DATA_OFF_CHAIN | DATA_OFF_LIST => {
            let (chained, listed) = (clause != DATA_OFF_CHAIN, clause != DATA_OFF_LIST);
            if unheld.is_empty() || once_in(random, 2) {
                draft.add(new_data(b"OTHER=1", chained, listed), place);
                draft.add(new_field(true), place);
            } else {
                let it = draft.data_mut(pick(random, &unheld));
                it.listed = listed;
                it.chained = it.chained.filter(|_| chained);
            }
        }
        FIELD_OFF_CHAIN => {
            draft.add(new_field(false), place);
        }
        DATA_WITHOUT_FIELD => {
            draft.add(new_data(b"OTHER=1", true, once_in(random, 2)), place);
        }
        COUNTED_ABOVE => return counted_above(random, draft, &data),
        ARRAY_TWICE => return array_twice(random, draft, &data, place),
        _ => return false,
    }
    true
}

/// A DATA's list gets an item above the last committed offset in an array of its own.
fn counted_above(random: &mut Random, draft: &mut Draft, data: &[usize]) -> bool {
    let fits: Vec<usize> = data
        .iter()
        .copied()
        .filter(|&part| draft.data(part).n_entries >= 1 && draft.data(part).entry_array.is_none())
        .collect();
    if fits.is_empty() {
        return false;
    }
    let part = pick(random, &fits);
    let n_entries = draft.data(part).n_entries;
    if n_entries != 1 {
        return false;
    }
    let items = vec![Item::Above(between(random, 0, 100)), Item::Raw(0)];
    let array = draft.add(Part::Array(Array { next: None, items }), usize::MAX);
    let it = draft.data_mut(part);
    it.entry_array = Some(array);
    it.n_entries = 2;
    true
}

/// A second link to an array: from a DATA of count 0 or 1, from an orphan, or to the header's.
fn array_twice(random: &mut Random, draft: &mut Draft, data: &[usize], place: usize) -> bool {
    let arrays = draft.in_order(|part| matches!(part, Part::Array(_)));
    if arrays.is_empty() {
        return false;
    }
    let few: Vec<usize> = data
        .iter()
        .copied()
        .filter(|&part| draft.data(part).n_entries < 2 && draft.data(part).entry_array.is_none())
        .collect();
    let array = match once_in(random, 3) {
        true => draft.entry_array.unwrap_or(arrays[0]),
        false => pick(random, &arrays),
    };
    if few.is_empty() || once_in(random, 2) {
        let place = place.min(draft.position(array));
        draft.add(
            Part::Array(Array {
                next: Some(array),
                items: vec![Item::Raw(0)],
            }),
            place,
        );
    } else {
        draft.data_mut(pick(random, &few)).entry_array = Some(array);
    }
    true
}
