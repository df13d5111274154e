//! Mutations of the late header fields, for refusal 14: the chain's first or last array, one off, 0
//! where an entry is committed and not 0 where none is.
use crate::generator::dice::{edge, once_in, pick};
use crate::generator::draft::Part;
use crate::generator::rendered::Rendered;
use crate::random::Random;
use reading::image::le32;
use reading::layout::header;
use reading::refusal::clause::*;

/// Another value for the field of a clause; false where the header has no such field.
pub fn mutate(clause: Clause, random: &mut Random, made: &mut Rendered) -> bool {
    let header_size = made.draft.header_size;
    if header_size < if clause == TAIL_ENTRY { 272 } else { 264 } {
        return false;
    }
    if clause == TAIL_ENTRY {
        let is = made.word(header::TAIL_ENTRY_OFFSET);
        let entries = offsets(made, |part| matches!(part, Part::Entry(_)));
        let value = other(random, is, &entries);
        made.set(header::TAIL_ENTRY_OFFSET, value);
        return true;
    }
    let (at, near) = match clause {
        TAIL_ARRAY => (
            header::TAIL_ENTRY_ARRAY_OFFSET,
            chain(made, made.draft.entry_array),
        ),
        _ => {
            let at = header::TAIL_ENTRY_ARRAY_N_ENTRIES;
            (at, counts(made, at, made.draft.committed.len() as u64))
        }
    };
    set_other(random, made, at, &near);
    true
}

/// Another number of 32 bits at a place.
pub fn set_other(random: &mut Random, made: &mut Rendered, at: u64, near: &[u64]) {
    let is = le32(&made.image, at) as u64;
    let mut value = is as u32;
    while value as u64 == is {
        value = other(random, is, near) as u32;
    }
    made.set_half(at, value);
}

/// Another number: one of those near it, or one at an edge.
fn other(random: &mut Random, is: u64, near: &[u64]) -> u64 {
    let mut value = is;
    while value == is {
        value = match near.is_empty() || once_in(random, 3) {
            true => edge(random, is),
            false => pick(random, near),
        };
    }
    value
}

fn offsets(made: &Rendered, test: impl Fn(&Part) -> bool) -> Vec<u64> {
    let parts = made.draft.in_order(test).into_iter();
    parts.map(|part| made.offsets[part]).collect()
}

/// The arrays of a chain, those after the last counted item too; the first and the last once more.
pub fn chain(made: &Rendered, first: Option<usize>) -> Vec<u64> {
    let mut chain = Vec::new();
    let mut next = first;
    while let Some(part) = next {
        chain.push(made.offsets[part]);
        next = match &made.draft.parts[part] {
            Part::Array(it) => it.next,
            _ => None,
        };
    }
    let ends = [chain.first().copied(), chain.last().copied()];
    chain.extend(ends.into_iter().flatten());
    chain
}

/// All entries of a list, the items of each array, and one off.
pub fn counts(made: &Rendered, at: u64, all: u64) -> Vec<u64> {
    let is = le32(&made.image, at) as u64;
    let mut counts = vec![is + 1, is.wrapping_sub(1), all, all.saturating_sub(1)];
    for part in &made.draft.parts {
        if let Part::Array(it) = part {
            counts.push(it.items.len() as u64);
        }
    }
    counts
}
