//! 11 by the cells: what is met first along the chains is not what stands first in the file.
use super::drawn::{chain, chain_field};
use super::sample::*;
use super::{changed, Case};
use crate::generator::rendered::hash;
use reading::layout::{data, field, table};

pub fn cases(form: Form) -> Vec<Case> {
    [
        wrong_cells(form),
        wrong_field_cells(form),
        halves_of_a_list(form),
        met_twice(form),
    ]
    .into_iter()
    .flatten()
    .collect()
}

/// Each two DATA in wrong cells, as far from their own as can be: whichever cell comes first.
fn wrong_cells(form: Form) -> Vec<Case> {
    let mut cases = Vec::new();
    for (i, one) in ALL_DATA.into_iter().enumerate() {
        for other in ALL_DATA.into_iter().skip(i + 1) {
            for (by, by_other) in (1..5).flat_map(|by| (1..5).map(move |other| (by, other))) {
                let made = redrawn(form, |it| {
                    chain(it, one, by);
                    chain(it, other, by_other);
                });
                let what = format!("DATA {one} and {other} {by} and {by_other} cells further");
                cases.push(Case::new(what, &made.image, 11, made.offsets[one]));
            }
        }
    }
    cases
}

/// The same with the FIELDs that no DATA needs.
fn wrong_field_cells(form: Form) -> Vec<Case> {
    let mut cases = Vec::new();
    for (by, by_other) in [(1, 1), (1, 2), (2, 1), (2, 2)] {
        let made = redrawn(form, |it| {
            chain_field(it, LATER_NAMESAKE, by, false);
            chain_field(it, NAMESAKE, by_other, true);
        });
        let what = format!("FIELDs {by_other} and {by} cells further");
        let place = made.offsets[NAMESAKE];
        cases.push(Case::new(what, &made.image, 11, place));
    }
    cases
}

/// Two FIELDs of one name on a chain, the first with a part of the list: A2 is only in the second's, and
/// stands before it. With the second FIELD before A2, that is named.
fn halves_of_a_list(form: Form) -> Vec<Case> {
    let halves = |first: usize, second: usize| {
        let mut made = redrawn(form, |it| {
            for part in [NAMESAKE, FIELD_A, LATER_NAMESAKE] {
                let on = part == first || part == second;
                it.field_mut(part).chained = on.then_some(0);
                it.field_mut(part).heads = part == second;
            }
        });
        let (at, to) = (
            made.offsets[first] + field::HEAD_DATA_OFFSET,
            made.offsets[A1],
        );
        made.set(at, to);
        made
    };
    let mut cases = Vec::new();
    for (first, second, place) in [
        (NAMESAKE, FIELD_A, FIELD_A),
        (NAMESAKE, LATER_NAMESAKE, A2),
        (FIELD_A, LATER_NAMESAKE, A2),
    ] {
        let made = halves(first, second);
        let what = format!("a part of the list with FIELD {first}, all with FIELD {second}");
        cases.push(Case::new(what, &made.image, 11, made.offsets[place]));
    }
    cases
}

/// DATA met in several cells, and equal payloads of which the later one is met first.
fn met_twice(form: Form) -> Vec<Case> {
    let mut cases = Vec::new();
    let made = drawn(&sample(form));
    let cells = made.draft.data_cells;
    let own = |part: usize| hash(&made.draft, &made.draft.data(part).payload) % cells;
    // A1 in its cell, and its twin in any other.
    for further in 1..cells {
        let made = redrawn(form, |it| chain(it, LATER_TWIN, further));
        let what = format!("an equal payload {further} cells after cell {}", own(A1));
        let place = made.offsets[LATER_TWIN];
        cases.push(Case::new(what, &made.image, 11, place));
    }
    let head = |cell: u64| made.data_table + table::CELLS + 16 * cell;
    for (from, to) in (0..cells).flat_map(|from| (0..cells).map(move |to| (from, to))) {
        // All of a chain in an empty cell too. It rises, so its head is the first.
        let first = made.word(head(to));
        if made.word(head(from)) == 0 && first != 0 {
            let image = changed(&made, |it| it.set(head(from), first));
            let what = format!("the chain of cell {to} in cell {from} too");
            cases.push(Case::new(what, &image, 11, first));
        }
    }
    for cell in (0..cells).filter(|&cell| cell != own(B2)) {
        let (tail, to) = (made.word(head(cell) + 8), made.offsets[B2]);
        if tail != 0 && tail < to {
            let image = changed(&made, |it| it.set(tail + data::NEXT_HASH_OFFSET, to));
            let what = format!("B2 in cell {cell} too");
            cases.push(Case::new(what, &image, 11, to));
        }
    }
    cases
}
