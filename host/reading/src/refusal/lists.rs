//! Refusal 10.
use std::collections::BTreeSet;

use super::clause::*;
use super::fault::Fault;
use crate::committed::{committed, counted, holders, last_committed, list};
use crate::image::Image;
use crate::layout::kind;

/// 10: "a DATA's chain too short for its count, or its list differs from the committed
/// entries that hold it". Every walked DATA is judged, and is at fault itself.
pub fn ten(image: &Image, found: &mut Vec<Fault>) {
    let committed = committed(image);
    let holders = holders(image, &committed);
    let none = Vec::new();
    for object in image.of_kind(kind::DATA) {
        let held_by = holders.get(&object.offset).unwrap_or(&none);
        let Some(counted) = counted(image, object.offset) else {
            found.push(CHAIN_SHORT.at(object.offset));
            continue;
        };
        let list = list(&counted, last_committed(&committed));
        if list != *held_by {
            let how = differs(&counted, &list, held_by);
            found.extend(how.into_iter().map(|clause| clause.at(object.offset)));
        }
    }
}

/// How a list differs.
fn differs(counted: &[u64], list: &[u64], held_by: &[u64]) -> Vec<Clause> {
    if counted.is_empty() {
        return vec![COUNT_ZERO_HELD];
    }
    let mut how = Vec::new();
    if counted[0] == 0 {
        how.push(INLINE_ZERO);
    }
    if counted[1..].contains(&0) {
        how.push(COUNTED_ZERO);
    }
    let in_list: BTreeSet<u64> = list.iter().copied().filter(|&offset| offset != 0).collect();
    let in_held: BTreeSet<u64> = held_by.iter().copied().collect();
    if !in_held.is_subset(&in_list) {
        how.push(LIST_MISSES);
    }
    if !in_list.is_subset(&in_held) {
        how.push(LIST_EXTRA);
    }
    if in_list.len() < list.iter().filter(|&&offset| offset != 0).count() {
        how.push(LIST_REPEATS);
    }
    let mut sorted = list.to_vec();
    sorted.sort();
    if sorted == held_by {
        how.push(LIST_ORDER);
    }
    how
}
