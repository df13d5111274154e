//! The arrays of a draft: the global chain and the DATA's lists.
use super::dice::{between, once_in, pick, shuffle};
use super::draft::{Array, Draft, Item, Part};
use super::wish::Wish;
use crate::random::Random;

/// Adds arrays with room for the committed entries and for each DATA's list, settles the
/// order of the objects, and fills all in.
pub fn add_arrays(
    random: &mut Random,
    draft: &mut Draft,
    wish: Wish,
    entries: Vec<usize>,
    committed: Vec<usize>,
) {
    let exact = once_in(random, 3);
    let global = add_chain(random, draft, committed.len() as u64, exact);
    let data: Vec<usize> = (0..draft.parts.len())
        .filter(|&part| matches!(draft.parts[part], Part::Data(_)))
        .collect();
    let mut chains = Vec::new();
    for &part in &data {
        let held = committed
            .iter()
            .filter(|&&entry| draft.entry(entry).items.contains(&part))
            .count() as u64;
        // Items that will lie above the last committed offset.
        let above = if wish.tidy {
            0
        } else {
            pick(random, &[0, 0, 0, 1, 2])
        };
        let exact = once_in(random, 3);
        chains.push((
            above,
            add_chain(random, draft, (held + above).saturating_sub(1), exact),
        ));
    }
    if once_in(random, 4) {
        let orphan = Array {
            next: None,
            items: vec![Item::Raw(random.word()); 2],
        };
        draft.parts.push(Part::Array(orphan));
    }
    draft.order = (0..draft.parts.len()).collect();
    if !once_in(random, 3) {
        shuffle(random, &mut draft.order);
    }
    draft.committed = draft
        .in_order(|_| true)
        .into_iter()
        .filter(|part| committed.contains(part))
        .collect();
    super::facts::number(random, draft);
    let items: Vec<Item> = draft
        .committed
        .iter()
        .map(|&entry| Item::Entry(entry))
        .collect();
    draft.entry_array = fill(random, draft, global, &items);
    for (part, (above, chain)) in data.into_iter().zip(chains) {
        fill_data(random, draft, wish, part, above, chain, &entries);
    }
}

/// Arrays with room for so many items, and often more.
fn add_chain(random: &mut Random, draft: &mut Draft, room: u64, exact: bool) -> Vec<usize> {
    let mut chain = Vec::new();
    let mut left = room
        + if exact {
            0
        } else {
            pick(random, &[0, 1, 2, 5])
        };
    while left > 0 {
        let n = if once_in(random, 2) {
            left
        } else {
            between(random, 1, left)
        };
        left -= n;
        chain.push(draft.parts.len());
        let items = vec![Item::Raw(0); n as usize];
        draft.parts.push(Part::Array(Array { next: None, items }));
    }
    chain
}

/// Links a chain by rising offset and fills its items; spare items hold anything. The first.
fn fill(
    random: &mut Random,
    draft: &mut Draft,
    chain: Vec<usize>,
    items: &[Item],
) -> Option<usize> {
    let mut chain = chain;
    chain.sort_by_key(|&part| draft.position(part));
    let mut rest = items.iter().copied();
    for (i, &part) in chain.iter().enumerate() {
        let next = chain.get(i + 1).copied();
        let choices: Vec<Item> = [draft.committed.clone(), chain.clone()]
            .concat()
            .into_iter()
            .map(Item::Entry)
            .collect();
        let array = draft.array_mut(part);
        array.next = next;
        for item in array.items.iter_mut() {
            *item = rest.next().unwrap_or_else(|| match random.below(5) {
                0 => Item::Raw(random.word()),
                1 => Item::End,
                2 => pick(random, &choices),
                _ => Item::Raw(0),
            });
        }
    }
    assert!(rest.next().is_none(), "the chain has room");
    chain.first().copied()
}

/// The list of a DATA: the committed entries that hold it, and between them items above the
/// last committed offset.
fn fill_data(
    random: &mut Random,
    draft: &mut Draft,
    wish: Wish,
    part: usize,
    above: u64,
    chain: Vec<usize>,
    entries: &[usize],
) {
    let last = draft
        .committed
        .last()
        .map_or(0, |&entry| draft.position(entry) + 1);
    let later: Vec<usize> = entries
        .iter()
        .copied()
        .filter(|&entry| draft.position(entry) >= last)
        .collect();
    let mut list: Vec<Item> = draft.holders(part).into_iter().map(Item::Entry).collect();
    for _ in 0..above {
        let item = match random.below(4) {
            0 if !later.is_empty() => Item::Entry(pick(random, &later)),
            1 => Item::Raw(u64::MAX),
            _ => Item::Above(random.below(300) as u64),
        };
        // entry_offset has to land on an ENTRY, so only such a one goes in front.
        let first_fits = matches!(item, Item::Entry(_));
        if list.is_empty() && !first_fits {
            continue;
        }
        let place = between(random, if first_fits { 0 } else { 1 }, list.len() as u64);
        list.insert(place as usize, item);
    }
    let entry_array = fill(random, draft, chain, list.get(1..).unwrap_or(&[]));
    let arrays = draft.in_order(|part| matches!(part, Part::Array(_)));
    let data = draft.data_mut(part);
    data.n_entries = list.len() as u64;
    data.entry_array = entry_array;
    match list.first() {
        Some(&item) => data.entry_offset = item,
        None => {
            // "Count 0: empty list whatever the links say."
            if !entries.is_empty() && once_in(random, 2) {
                data.entry_offset = Item::Entry(pick(random, entries));
            }
        }
    }
    if !wish.tidy && list.len() < 2 && !arrays.is_empty() && once_in(random, 4) {
        data.entry_array = Some(pick(random, &arrays));
    }
}
