//! The rule by which the archive reads sync points off a list: as the page for those who write a host
//! has it, and with an answer for every list.
use std::collections::BTreeSet;

use checks::against::syncs::put_all;
use reading::carry::{stores, Store};
use reading::layout::header::*;

/// Group 3: what stands in the header's counters.
pub const COUNTERS: [u64; 5] = [
    TAIL_OBJECT_OFFSET,
    N_OBJECTS,
    N_DATA,
    N_FIELDS,
    N_ENTRY_ARRAYS,
];

/// The group of a store, by that of the one before it, 0 for none, and by where the new objects of
/// the entry stand from.
fn next(group: u64, first: u64, store: &Store) -> u64 {
    let is = |at: u64, then: u64, other: u64| if store.offset == at { then } else { other };
    match group {
        0 => 1,
        1 => 2,
        2 => is(TAIL_OBJECT_OFFSET, 3, 2),
        3 if COUNTERS.contains(&store.offset) => 3,
        3 | 4 => is(BOOT_ID, 6, if store.value < first { 5 } else { 4 }),
        5 => is(BOOT_ID, 6, 5),
        6 => is(N_ENTRIES, 7, 6),
        // The end, or the next entry.
        7 => is(STATE, 8, 2),
        _ => 8,
    }
}

/// The groups of the stores, one after the other.
pub fn groups(list: &[u8]) -> Vec<u64> {
    let (mut group, mut first) = (0, 0);
    let of = |store: Store| {
        let before = group;
        group = next(before, first, &store);
        // The first store of group 2 has the offset of the first new object.
        if before == 1 || before == 7 {
            first = store.offset;
        }
        group
    };
    stores(list).into_iter().map(of).collect()
}

/// Behind the last store before each sync; groups 1 and 2 share one, and 5 and 6.
pub fn points(groups: &[u64]) -> Vec<usize> {
    let sync = |group: &u64| [1, 1, 2, 3, 4, 4, 5, 6][*group as usize - 1];
    let syncs: Vec<u64> = groups.iter().map(sync).collect();
    let last = |n: &usize| syncs.get(*n) != Some(&syncs[n - 1]);
    (1..=syncs.len()).filter(last).collect()
}

/// Compares the archive with the rule, and notes which group came after which.
pub fn compare(list: &[u8], tried: u64, seen: &mut BTreeSet<(u64, u64)>) {
    let groups = groups(list);
    put_all(list, &points(&groups), tried).unwrap_or_else(|difference| panic!("{difference}"));
    seen.extend(groups.windows(2).map(|two| (two[0], two[1])));
}
