//! The generator's appends that are taken have every form.
use std::collections::BTreeMap;

use checks::generator::appends;
use checks::random::Random;
use reading::layout::{data, entry, header, Layout};
use reading::lookup::open;
use reading::plan::plan;
use reading::tail::tail;

use crate::freedoms::count;

#[test]
fn appends_have_every_form() {
    let mut table = BTreeMap::new();
    for seed in 0..4_000 {
        let case = appends::good(&mut Random::new(seed));
        let Ok(stores) = plan(&case.image, &case.asked.request()) else {
            continue;
        };
        let Ok(journal) = open(&case.image) else {
            panic!("opens")
        };
        let mut seen = Vec::new();
        seen.push(match (journal.image.header_size(), case.image[8]) {
            (256, 0) => "a header of 256",
            (272, 0) => "a header of 272",
            (272, 2) => "a header of 272 with compatible bit 1",
            other => panic!("{other:?}"),
        });
        let compact = journal.image.layout == Layout::Compact;
        seen.push(match compact {
            false => "a regular file",
            true => "a compact file",
        });
        let arrays = journal
            .image
            .arrays(journal.image.word(header::ENTRY_ARRAY_OFFSET));
        let tail = tail(&journal.image).array.offset;
        if tail != 0 && arrays.last().is_some_and(|last| last.offset != tail) {
            seen.push("arrays chained ahead");
        }
        let items = journal
            .image
            .chain_items(journal.image.word(header::ENTRY_ARRAY_OFFSET));
        match items.get(journal.committed.len()) {
            None if items.is_empty() => seen.push("the first global array"),
            None => seen.push("a later global array"),
            Some((at, _)) if stores.iter().any(|store| store.offset == at / 8 * 8) => {
                seen.push("a spare global item");
                if compact && at % 8 == 4 {
                    seen.push("an item in the other half of a committed one's word");
                }
            }
            Some(_) => seen.push("a spare global item that holds the entry already"),
        }
        for object in journal.image.of_kind(1) {
            let Some(store) = stores
                .iter()
                .find(|store| store.offset == object.offset + data::N_ENTRIES)
            else {
                continue;
            };
            let first = journal.image.word(object.offset + data::ENTRY_ARRAY_OFFSET);
            let (room, counted) = (
                journal.image.chain_items(first).len() as u64,
                store.value - 1,
            );
            let tail = object.offset + data::TAIL_ENTRY_ARRAY_OFFSET;
            let stored = stores.iter().any(|store| store.offset == tail);
            assert_eq!(stored, compact && counted > 0);
            if stored {
                seen.push("a DATA's tail word");
            }
            seen.push(match counted {
                0 => "an old DATA of count 0",
                _ if room > counted - 1 => "a DATA's spare item",
                1 => "a DATA's first array",
                _ => "a DATA's later array",
            });
        }
        match journal.committed.last() {
            None => seen.push("a first entry"),
            Some(last) => {
                let last = journal.image.word(last + entry::REALTIME);
                if case.asked.realtime < last {
                    seen.push("a realtime below the last");
                }
            }
        }
        count(&mut table, seen);
    }
    for (what, times) in &table {
        println!("{times:>6} {what}");
    }
    assert_eq!(table.len(), 18);
    assert!(table.values().all(|&times| times >= 20));
}
