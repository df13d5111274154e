//! 10: the DATA whose chain is too short or whose list differs.
use super::sample::*;
use super::{changed, Case};
use crate::generator::rendered::Rendered;
use reading::layout::{array, data};

/// A change of a DATA's list, and the DATA.
type Change = (usize, Box<dyn Fn(&mut Rendered)>);

fn changes(made: &Rendered) -> Vec<Change> {
    let mut changes: Vec<Change> = Vec::new();
    let of = |part: usize| made.offsets[part];
    for part in ALL_DATA {
        let here = of(part);
        let count = made.word(here + data::N_ENTRIES);
        let held = count > 0;
        // Of the right count no array has an item to spare: one more is too many for the chain, or
        // counts an inline entry that is 0.
        let mut counts = vec![count + 1, count + 2, 1 << 32, 1 << 63, u64::MAX];
        // One less: an entry is missing.
        counts.extend((0..count).rev());
        for to in counts {
            changes.push((part, Box::new(move |it| it.set(here + data::N_ENTRIES, to))));
        }
        for to in [0, of(UNCOMMITTED)].into_iter().filter(|_| held) {
            let at = here + data::ENTRY_OFFSET;
            changes.push((part, Box::new(move |it| it.set(at, to))));
        }
    }
    // Its second entry, or its third, in place of the first.
    for to in [ENTRIES[1], ENTRIES[2]].map(of) {
        let at = of(A1) + data::ENTRY_OFFSET;
        changes.push((A1, Box::new(move |it| it.set(at, to))));
    }
    for (part, list, items) in [(A1, LIST_A1, 2), (A2, LIST_A2, 1)] {
        let first = of(list) + array::ITEMS;
        for at in (0..items).map(|i| first + made.draft.layout.array_item() * i) {
            // None, one that does not hold it, one that is not committed, no ENTRY.
            for to in [0, of(ENTRIES[0]), of(UNCOMMITTED), of(B1)] {
                changes.push((part, Box::new(move |it| it.set_item(at, to))));
            }
        }
        // Without its arrays, and with those of the other.
        let other = of(LIST_A1 + LIST_A2 - list);
        for to in [0, other] {
            let at = of(part) + data::ENTRY_ARRAY_OFFSET;
            changes.push((part, Box::new(move |it| it.set(at, to))));
        }
    }
    changes
}

/// Each alone, and with each of a later DATA: the one too short for its count and the other only different,
/// and the other way round.
pub fn cases(form: Form) -> Vec<Case> {
    let made = drawn(&sample(form));
    let changes = changes(&made);
    let mut cases = Vec::new();
    for (i, (part, one)) in changes.iter().enumerate() {
        let what = format!("change {i} of the lists, of DATA {part}");
        let place = made.offsets[*part];
        cases.push(Case::new(what, &changed(&made, one), 10, place));
        for (j, (later, other)) in changes.iter().enumerate().filter(|it| it.1 .0 > *part) {
            let image = changed(&made, |it| {
                other(it);
                one(it);
            });
            let what = format!("changes {i} and {j} of the lists, of DATA {part} and {later}");
            cases.push(Case::new(what, &image, 10, place));
        }
    }
    cases
}
