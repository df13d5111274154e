//! Refusal 8.
use super::clause::*;
use super::fault::{Fault, HEADER};
use crate::image::Image;
use crate::layout::{array, data, field, header, kind, table};

/// 8: "a link not 0 that does not land on an object of its kind: entry_array_offset, array
/// next (strictly later), cell head, next_hash (strictly later, same kind), head_data,
/// next_field (strictly earlier), entry_offset, entry_array; or an ENTRY item that is not
/// DATA, or items not strictly rising".
///
/// Every walked holder is judged, committed, chained, counted or not. "a bad link is its holder's fault":
/// a cell head is its table's, an item its ENTRY's.
pub fn eight(image: &Image, found: &mut Vec<Fault>) {
    let mut link = |holder: u64, at: u64, kind: u8, clause: Clause| -> u64 {
        let offset = image.word(holder + at);
        if offset != 0 && !image.lands(offset, kind) {
            found.push(clause.at(holder));
        }
        offset
    };
    let mut order = Vec::new();
    link(
        HEADER,
        header::ENTRY_ARRAY_OFFSET,
        kind::ENTRY_ARRAY,
        HEADER_ARRAY,
    );
    for object in &image.objects {
        let here = object.offset;
        match object.kind {
            kind::DATA_HASH_TABLE => {
                for i in 0..image.cells(object).len() as u64 {
                    link(here, table::CELLS + 16 * i, kind::DATA, DATA_CELL_HEAD);
                }
            }
            kind::FIELD_HASH_TABLE => {
                for i in 0..image.cells(object).len() as u64 {
                    link(here, table::CELLS + 16 * i, kind::FIELD, FIELD_CELL_HEAD);
                }
            }
            kind::DATA => {
                let next = link(
                    here,
                    data::NEXT_HASH_OFFSET,
                    kind::DATA,
                    DATA_NEXT_HASH_KIND,
                );
                if next != 0 && next <= here {
                    order.push(DATA_NEXT_HASH_ORDER.at(here));
                }
                let next = link(here, data::NEXT_FIELD_OFFSET, kind::DATA, NEXT_FIELD_KIND);
                if next != 0 && next >= here {
                    order.push(NEXT_FIELD_ORDER.at(here));
                }
                link(here, data::ENTRY_OFFSET, kind::ENTRY, ENTRY_OFFSET_KIND);
                link(
                    here,
                    data::ENTRY_ARRAY_OFFSET,
                    kind::ENTRY_ARRAY,
                    ENTRY_ARRAY_KIND,
                );
            }
            kind::FIELD => {
                let next = link(
                    here,
                    field::NEXT_HASH_OFFSET,
                    kind::FIELD,
                    FIELD_NEXT_HASH_KIND,
                );
                if next != 0 && next <= here {
                    order.push(FIELD_NEXT_HASH_ORDER.at(here));
                }
                link(here, field::HEAD_DATA_OFFSET, kind::DATA, HEAD_DATA_KIND);
            }
            kind::ENTRY_ARRAY => {
                let next = link(
                    here,
                    array::NEXT_ENTRY_ARRAY_OFFSET,
                    kind::ENTRY_ARRAY,
                    ARRAY_NEXT_KIND,
                );
                if next != 0 && next <= here {
                    order.push(ARRAY_NEXT_ORDER.at(here));
                }
            }
            kind::ENTRY => {
                let items = image.entry_items(object);
                for &(offset, _) in &items {
                    if !image.lands(offset, kind::DATA) {
                        let clause = if offset == 0 { ITEM_ZERO } else { ITEM_KIND };
                        order.push(clause.at(here));
                    }
                }
                for pair in items.windows(2) {
                    if pair[0].0 == pair[1].0 {
                        order.push(ITEMS_EQUAL.at(here));
                    }
                    if pair[0].0 > pair[1].0 {
                        order.push(ITEMS_FALLING.at(here));
                    }
                }
            }
            _ => {}
        }
    }
    found.append(&mut order);
}
