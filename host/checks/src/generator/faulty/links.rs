//! 8: "a bad link is its holder's fault".
use super::sample::*;
use super::{changed, Case};
use crate::generator::rendered::Rendered;
use reading::layout::{array, data, entry, field, header, table};

/// A word, or an item, and what it is set to; the offset of the object that holds it.
struct Link {
    holder: u64,
    at: u64,
    to: u64,
    is_item: bool,
}

/// Every link of the sample, each to an object on which it may not land.
fn links(made: &Rendered) -> Vec<Link> {
    let of = |part: usize| made.offsets[part];
    let mut links = Vec::new();
    let mut word = |holder: u64, at: u64, to: u64| {
        links.push(Link {
            holder,
            at: holder + at,
            to,
            is_item: false,
        })
    };
    word(0, header::ENTRY_ARRAY_OFFSET, of(A1));
    for cell in 0..made.draft.data_cells {
        word(made.data_table, table::CELLS + 16 * cell, of(FIELD_A));
    }
    for cell in 0..made.draft.field_cells {
        word(made.field_table, table::CELLS + 16 * cell, of(A1));
    }
    for here in ALL_DATA.map(of) {
        // Not strictly later, not strictly earlier.
        word(here, data::NEXT_HASH_OFFSET, here);
        word(here, data::NEXT_FIELD_OFFSET, here);
        word(here, data::ENTRY_OFFSET, of(A2));
        word(here, data::ENTRY_ARRAY_OFFSET, of(ENTRIES[1]));
    }
    for here in ALL_FIELDS.map(of) {
        word(here, field::NEXT_HASH_OFFSET, here);
        word(here, field::HEAD_DATA_OFFSET, here);
    }
    for here in ALL_ARRAYS.map(of) {
        word(here, array::NEXT_ENTRY_ARRAY_OFFSET, here);
        word(here, array::NEXT_ENTRY_ARRAY_OFFSET, of(GLOBAL[0]));
    }
    for part in ALL_ENTRIES {
        let (holder, count) = (of(part), made.draft.entry(part).items.len() as u64);
        for place in 0..count {
            // No DATA; and with the DATA behind all others, the items fall but for the last one.
            let targets = [0, of(ENTRIES[0]), of(LATER_TWIN)];
            for &to in &targets[..if place + 1 < count { 3 } else { 2 }] {
                links.push(Link {
                    holder,
                    at: holder + entry::ITEMS + made.draft.layout.entry_item() * place,
                    to,
                    is_item: true,
                });
            }
        }
    }
    links
}

/// Each alone, and each two.
pub fn cases(form: Form) -> Vec<Case> {
    let made = drawn(&sample(form));
    let set = |it: &mut Rendered, link: &Link| match link.is_item {
        true => it.set_item(link.at, link.to),
        false => it.set(link.at, link.to),
    };
    let links = links(&made);
    let mut cases = Vec::new();
    for (i, one) in links.iter().enumerate() {
        let what = format!("{} in the link at {}", one.to, one.at);
        let image = changed(&made, |it| set(it, one));
        cases.push(Case::new(what, &image, 8, one.holder));
        for other in links[i + 1..].iter().filter(|it| it.at != one.at) {
            let image = changed(&made, |it| {
                set(it, other);
                set(it, one);
            });
            let what = format!("links at {} and {}", one.at, other.at);
            let place = one.holder.min(other.holder);
            cases.push(Case::new(what, &image, 8, place));
        }
    }
    cases
}
