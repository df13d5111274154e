//! 9: "the first committed position at fault, given as its index".
use super::sample::*;
use super::{changed, Case};
use crate::generator::rendered::Rendered;
use reading::layout::{array, entry, header};

/// A change, and the position that is at fault by it.
type Change = (u64, Box<dyn Fn(&mut Rendered)>);

/// Where the item of a position stands.
fn item(made: &Rendered, position: usize) -> u64 {
    let [first, second] = GLOBAL.map(|part| made.offsets[part] + array::ITEMS);
    match position {
        0 => first,
        1 => first + made.draft.layout.array_item(),
        _ => second,
    }
}

fn changes(made: &Rendered) -> Vec<Change> {
    let mut changes: Vec<Change> = Vec::new();
    // Three items are there.
    for count in [4, 5, 1 << 32, u64::MAX] {
        changes.push((3, Box::new(move |it| it.set(header::N_ENTRIES, count))));
    }
    for (position, part) in ENTRIES.into_iter().enumerate() {
        let (index, at, here) = (position as u64, item(made, position), made.offsets[part]);
        for to in [0, made.offsets[C], made.offsets[part] + 8, made.data_table] {
            changes.push((index, Box::new(move |it| it.set_item(at, to))));
        }
        changes.push((index, Box::new(move |it| it.set(here + entry::SEQNUM, 0))));
        if position == 0 {
            continue;
        }
        // Against the one before: "Of two neighbours, the later is at fault".
        let before = made.offsets[ENTRIES[position - 1]];
        changes.push((index, Box::new(move |it| it.set_item(at, before))));
        let seqnum = made.word(before + entry::SEQNUM);
        for to in [seqnum, seqnum - 1, 1] {
            changes.push((index, Box::new(move |it| it.set(here + entry::SEQNUM, to))));
        }
        let monotonic = made.word(before + entry::MONOTONIC);
        for to in [monotonic - 1, 0] {
            changes.push((
                index,
                Box::new(move |it| it.set(here + entry::MONOTONIC, to)),
            ));
        }
    }
    changes
}

/// Each alone, and each with one of a later position.
pub fn cases(form: Form) -> Vec<Case> {
    let made = drawn(&sample(form));
    let changes = changes(&made);
    let mut cases = Vec::new();
    for (i, (index, one)) in changes.iter().enumerate() {
        let what = format!("change {i} of the positions");
        cases.push(Case::new(what, &changed(&made, one), 9, *index));
        for (j, (_, other)) in changes.iter().enumerate().filter(|it| it.1 .0 > *index) {
            let image = changed(&made, |it| {
                other(it);
                one(it);
            });
            let what = format!("changes {i} and {j} of the positions");
            cases.push(Case::new(what, &image, 9, *index));
        }
    }
    for position in 1..ENTRIES.len() {
        let exchanged = changed(&made, |it| {
            let [one, other] = [position - 1, position].map(|place| item(it, place));
            let (first, second) = (it.item(one), it.item(other));
            it.set_item(one, second);
            it.set_item(other, first);
        });
        let what = format!("positions {position} and the one before exchanged");
        cases.push(Case::new(what, &exchanged, 9, position as u64));
    }
    cases
}
