//! What is committed.
use std::collections::BTreeMap;

use super::image::Image;
use super::layout::{data, header};

/// "Committed entries are the first n_entries items of the header's array chain": their
/// offsets. Where n_entries is above the chain's items (refusal 9), all of those.
pub fn committed(image: &Image) -> Vec<u64> {
    let n_entries = image.word(header::N_ENTRIES);
    let items = image.chain_items(image.word(header::ENTRY_ARRAY_OFFSET));
    items
        .into_iter()
        .map(|(_, offset)| offset)
        .zip(0..n_entries)
        .map(|(offset, _)| offset)
        .collect()
}

/// "the last committed offset (0 if none)"
pub fn last_committed(committed: &[u64]) -> u64 {
    committed.last().copied().unwrap_or(0)
}

/// For each DATA offset the committed entries that hold it, in order. The committed items
/// are ENTRYs (refusal 9 passed).
pub fn holders(image: &Image, committed: &[u64]) -> BTreeMap<u64, Vec<u64>> {
    let mut holders: BTreeMap<u64, Vec<u64>> = BTreeMap::new();
    for &offset in committed {
        let entry = image.object_at(offset).expect("refusal 9 passed");
        for (object_offset, _) in image.entry_items(&entry) {
            holders.entry(object_offset).or_default().push(offset);
        }
    }
    holders
}

/// What a DATA counts: nothing "if its own n_entries is 0; otherwise it is entry_offset and
/// then the first n_entries - 1 items of its chain". None where the chain is too short.
pub fn counted(image: &Image, data_offset: u64) -> Option<Vec<u64>> {
    let n_entries = image.word(data_offset + data::N_ENTRIES);
    if n_entries == 0 {
        return Some(Vec::new());
    }
    let items = image.chain_items(image.word(data_offset + data::ENTRY_ARRAY_OFFSET));
    if (items.len() as u64) < n_entries - 1 {
        return None;
    }
    let mut list = vec![image.word(data_offset + data::ENTRY_OFFSET)];
    for i in 0..n_entries - 1 {
        list.push(items[i as usize].1);
    }
    Some(list)
}

/// A DATA's list: what it counts, "less those of them, entry_offset too, that lie above the
/// last committed offset".
pub fn list(counted: &[u64], last_committed: u64) -> Vec<u64> {
    counted
        .iter()
        .copied()
        .filter(|&offset| offset <= last_committed)
        .collect()
}
