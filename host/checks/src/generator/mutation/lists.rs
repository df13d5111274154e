//! Mutations for refusal 10.
use crate::generator::dice::{once_in, pick};
use crate::generator::draft::Part;
use crate::generator::rendered::Rendered;
use crate::random::Random;
use reading::committed::{committed, counted, last_committed};
use reading::image::Image;
use reading::layout::{data, kind};
use reading::refusal::clause::*;

pub fn mutate(clause: Clause, random: &mut Random, made: &mut Rendered) -> bool {
    let parts = made.draft.in_order(|part| matches!(part, Part::Data(_)));
    if parts.is_empty() {
        return false;
    }
    let here = made.offsets[pick(random, &parts)];
    let count = here + data::N_ENTRIES;
    let n_entries = made.word(count);
    let Some((places, committed, last)) = places(made, here) else {
        return false;
    };
    let room = places.len() as u64;
    let listed: Vec<u64> = places
        .iter()
        .take(n_entries as usize)
        .copied()
        .filter(|&at| held(made, here, at) <= last)
        .collect();
    match clause {
        CHAIN_SHORT => made.set(
            count,
            pick(random, &[room + 1, room + 2, 1 << 32, 1 << 63, u64::MAX]),
        ),
        COUNT_ZERO_HELD => {
            made.set(count, 0);
            return !listed.is_empty();
        }
        INLINE_ZERO => {
            made.set(here + data::ENTRY_OFFSET, 0);
            if n_entries == 0 {
                made.set(count, 1);
            }
        }
        COUNTED_ZERO => {
            if room < 2 {
                return false;
            }
            let which = random.below(room as usize - 1) + 1;
            made.set_item(places[which], 0);
            if which as u64 >= n_entries {
                made.set(count, which as u64 + 1);
            }
        }
        LIST_MISSES => {
            // "A DATA's count read without the first entry, which is inline."
            made.set(count, n_entries.saturating_sub(1));
            return n_entries > 1;
        }
        LIST_EXTRA => {
            if committed.is_empty() {
                return false;
            }
            let entry = pick(random, &committed);
            if n_entries == 0 {
                made.set(here + data::ENTRY_OFFSET, entry);
                made.set(count, 1);
            } else if n_entries < room {
                let between = last.saturating_sub(8);
                made.set_item(
                    places[n_entries as usize],
                    pick(random, &[entry, entry, between]),
                );
                made.set(count, n_entries + 1);
            } else {
                return false;
            }
        }
        LIST_REPEATS | LIST_ORDER => {
            if listed.len() < 2 {
                return false;
            }
            let i = random.below(listed.len() - 1);
            let j = if once_in(random, 2) {
                i + 1
            } else {
                listed.len() - 1
            };
            let (one, other) = (held(made, here, listed[i]), held(made, here, listed[j]));
            hold(made, here, listed[j], one);
            if clause == LIST_ORDER {
                hold(made, here, listed[i], other);
            }
        }
        _ => return false,
    }
    true
}

/// The offset at a place of a DATA's list: entry_offset is a word, and the others are items.
fn held(made: &Rendered, here: u64, at: u64) -> u64 {
    match at == here + data::ENTRY_OFFSET {
        true => made.word(at),
        false => made.item(at),
    }
}

fn hold(made: &mut Rendered, here: u64, at: u64, value: u64) {
    match at == here + data::ENTRY_OFFSET {
        true => made.set(at, value),
        false => made.set_item(at, value),
    }
}

/// The places of a DATA's list (entry_offset and the items of its chain), the committed
/// entries and the last of them. None where the chain is too short already.
fn places(made: &Rendered, here: u64) -> Option<(Vec<u64>, Vec<u64>, u64)> {
    let image = Image::walked(&made.image);
    assert!(image.lands(here, kind::DATA));
    counted(&image, here)?;
    let committed = committed(&image);
    let last = last_committed(&committed);
    let mut places = vec![here + data::ENTRY_OFFSET];
    places.extend(
        image
            .chain_items(image.word(here + data::ENTRY_ARRAY_OFFSET))
            .iter()
            .map(|item| item.0),
    );
    Some((places, committed, last))
}
