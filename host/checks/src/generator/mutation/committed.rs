//! Mutations for refusal 9.
use super::links::wrong_item;
use crate::generator::dice::{between, once_in, pick};
use crate::generator::rendered::Rendered;
use crate::random::Random;
use reading::image::Image;
use reading::layout::{entry, header, kind};
use reading::refusal::clause::*;

pub fn mutate(clause: Clause, random: &mut Random, made: &mut Rendered) -> bool {
    let n = made.draft.committed.len();
    let items: Vec<u64> = {
        let image = Image::walked(&made.image);
        image
            .chain_items(image.word(header::ENTRY_ARRAY_OFFSET))
            .iter()
            .map(|item| item.0)
            .collect()
    };
    if clause == COUNT_ABOVE_CHAIN {
        let room = items.len() as u64;
        made.set(
            header::N_ENTRIES,
            pick(random, &[room + 1, room + 2, 1 << 32, 1 << 63, u64::MAX]),
        );
        return true;
    }
    if n == 0 {
        return false;
    }
    let any = random.below(n);
    match clause {
        COMMITTED_ZERO => made.set_item(items[any], 0),
        COMMITTED_KIND => {
            let value = if once_in(random, 2) {
                made.item(items[any]) + 8
            } else {
                wrong_item(random, made, kind::ENTRY)
            };
            made.set_item(items[any], value);
        }
        SEQNUM_ZERO => {
            let which = if once_in(random, 2) { 0 } else { any };
            let at = made.item(items[which]) + entry::SEQNUM;
            made.set(at, 0);
        }
        _ => {
            if n < 2 {
                return false;
            }
            let first = random.below(n - 1);
            return neighbours(clause, random, made, items[first], items[first + 1]);
        }
    }
    true
}

/// Two committed items at these places, one after the other.
fn neighbours(
    clause: Clause,
    random: &mut Random,
    made: &mut Rendered,
    at: u64,
    next_at: u64,
) -> bool {
    let (one, next) = (made.item(at), made.item(next_at));
    match clause {
        OFFSETS_EQUAL => made.set_item(next_at, one),
        OFFSETS_FALLING => {
            made.set_item(at, next);
            made.set_item(next_at, one);
            if !once_in(random, 3) {
                // The facts along the chain stay as they were, so that only the offsets fall.
                for word in [16, 24, 32, 40, 48] {
                    let (a, b) = (made.word(one + word), made.word(next + word));
                    made.set(one + word, b);
                    made.set(next + word, a);
                }
            }
        }
        SEQNUMS_EQUAL => {
            let seqnum = made.word(one + entry::SEQNUM);
            made.set(next + entry::SEQNUM, seqnum);
        }
        SEQNUMS_FALLING => {
            let seqnum = made.word(one + entry::SEQNUM);
            let fallen = pick(random, &[seqnum.wrapping_sub(1), 1, seqnum ^ 1 << 63]);
            made.set(next + entry::SEQNUM, fallen);
            return fallen < seqnum && fallen > 0;
        }
        MONOTONIC_FALLING => {
            for word in [entry::BOOT_ID, entry::BOOT_ID + 8] {
                let half = made.word(one + word);
                made.set(next + word, half);
            }
            let monotonic = between(random, 1, 1 << 40);
            made.set(one + entry::MONOTONIC, monotonic);
            made.set(next + entry::MONOTONIC, pick(random, &[monotonic - 1, 0]));
        }
        _ => return false,
    }
    true
}
