//! The DATA, FIELDs and ENTRYs of a good image.
use super::dice::{between, once_in, pick, some_of};
use super::draft::{Data, Draft, Entry, Field, Item, Part};
use super::wish::Wish;
use crate::random::Random;

fn some_bytes(random: &mut Random) -> Vec<u8> {
    let length = if once_in(random, 40) {
        between(random, 0, 3000)
    } else {
        between(random, 0, 20)
    };
    let bytes = random.bytes(length as usize);
    if once_in(random, 3) {
        return bytes;
    }
    bytes
        .iter()
        .map(|byte| b"abc =10"[*byte as usize % 7])
        .collect()
}

/// DATA of payloads apart from one another, for committed entries.
pub fn add_data(random: &mut Random, draft: &mut Draft, wish: Wish, names: &[&[u8]]) -> Vec<usize> {
    let mut held = Vec::new();
    let mut payloads: Vec<Vec<u8>> = Vec::new();
    for _ in 0..between(random, 0, wish.data) {
        let payload = [pick(random, names), b"=", &some_bytes(random)].concat();
        if !payloads.contains(&payload) {
            payloads.push(payload.clone());
            held.push(draft.parts.len());
            draft.parts.push(data(payload, Some(0), true));
        }
    }
    held
}

fn data(payload: Vec<u8>, chained: Option<u64>, listed: bool) -> Part {
    let entry_offset = Item::Raw(0);
    Part::Data(Data {
        payload,
        chained,
        listed,
        entry_offset,
        entry_array: None,
        n_entries: 0,
    })
}

/// DATA that no committed entry is to hold: "DATA in no committed entry need be on no chain,
/// no list, and need no FIELD", and equal payloads are free off the chains.
pub fn add_loose(random: &mut Random, draft: &mut Draft, held: &[usize]) -> Vec<usize> {
    let mut loose = Vec::new();
    for _ in 0..pick(random, &[0, 0, 1, 3]) {
        let equal = !held.is_empty() && once_in(random, 2);
        let (payload, chained, listed) = if equal {
            (
                draft.data(pick(random, held)).payload.clone(),
                None,
                once_in(random, 2),
            )
        } else {
            let own = format!("LOOSE{}=", draft.parts.len());
            let chained = if once_in(random, 2) { Some(0) } else { None };
            (
                [own.as_bytes(), &some_bytes(random)].concat(),
                chained,
                once_in(random, 2),
            )
        };
        loose.push(draft.parts.len());
        draft.parts.push(data(payload, chained, listed));
    }
    loose
}

fn name(draft: &Draft, data: usize) -> Vec<u8> {
    reading::image::name_of(&draft.data(data).payload)
        .unwrap_or(b"")
        .to_vec()
}

/// A FIELD for every name of the DATA that entries may hold, and others.
pub fn add_fields(random: &mut Random, draft: &mut Draft, wish: Wish, held: &[usize]) {
    let mut names: Vec<Vec<u8>> = Vec::new();
    for &data in held {
        let name = name(draft, data);
        if !names.contains(&name) {
            names.push(name.clone());
            draft.parts.push(Part::Field(Field {
                name,
                chained: Some(0),
                heads: true,
            }));
        }
    }
    for _ in 0..pick(random, &[0, 0, 1, 2]) {
        let of_known = !wish.tidy && !names.is_empty() && once_in(random, 2);
        let name = if of_known {
            pick(random, &names)
        } else {
            format!("=F{}", draft.parts.len()).into_bytes()
        };
        let chained = if of_known || !wish.tidy && once_in(random, 2) {
            None
        } else {
            Some(0)
        };
        draft.parts.push(Part::Field(Field {
            name,
            chained,
            heads: once_in(random, 2),
        }));
    }
}

/// Entries; all of them, and those that are to be committed.
pub fn add_entries(
    random: &mut Random,
    draft: &mut Draft,
    wish: Wish,
    held: &[usize],
    loose: &[usize],
) -> (Vec<usize>, Vec<usize>) {
    let (mut entries, mut committed) = (Vec::new(), Vec::new());
    let all = [held, loose].concat();
    for _ in 0..between(random, 0, wish.entries) {
        let commit = !held.is_empty() && (wish.tidy || !once_in(random, 4));
        let choices = if commit { held } else { &all };
        if choices.is_empty() || wish.tidy && !commit {
            continue;
        }
        let mut items = some_of(random, choices);
        if items.is_empty() {
            items = vec![pick(random, choices)];
        }
        entries.push(draft.parts.len());
        if commit {
            committed.push(draft.parts.len());
        }
        let (seqnum, realtime, monotonic) = (random.word(), random.word(), random.word());
        let boot_id = random.array();
        draft.parts.push(Part::Entry(Entry {
            seqnum,
            realtime,
            monotonic,
            boot_id,
            items,
        }));
    }
    (entries, committed)
}
