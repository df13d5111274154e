//! The generator's good images have the freedoms that the rules leave.
use std::collections::BTreeMap;

use checks::generator::draft::{Item, Part};
use checks::generator::good;
use checks::generator::rendered::Rendered;
use checks::random::Random;
use reading::committed::{counted, list};
use reading::layout::{data, Layout, TAIL_ENTRY_BOOT_ID};
use reading::lookup::open;

/// What is special about a good image.
fn freedoms(made: &Rendered) -> Vec<&'static str> {
    let draft = &made.draft;
    let journal = open(&made.image).unwrap_or_else(|number| panic!("refused {number}"));
    let last = journal.committed.last().copied().unwrap_or(0);
    let mut seen = vec![
        if draft.keyed { "keyed" } else { "not keyed" },
        match draft.layout {
            Layout::Regular => "regular",
            Layout::Compact => "compact",
        },
        if draft.data_table_first {
            "data table first"
        } else {
            "field table first"
        },
    ];
    let mut see = |is: bool, what: &'static str| {
        if is {
            seen.push(what);
        }
    };
    for (size, without, with_bit) in [
        (256, "a header of 256", "a header of 256 with bit 1"),
        (264, "a header of 264", "a header of 264 with bit 1"),
        (272, "a header of 272", "a header of 272 with bit 1"),
    ] {
        let bit = draft.compatible_flags & TAIL_ENTRY_BOOT_ID != 0;
        see(draft.header_size == size && !bit, without);
        see(draft.header_size == size && bit, with_bit);
    }
    see(
        draft.data_cells == 1 && draft.field_cells == 1,
        "one cell each",
    );
    see(
        made.image.len() % 8 != 0,
        "a length that is no multiple of 8",
    );
    see(draft.spare > 0 && draft.noise, "bytes after the tail");
    see(
        draft.committed.is_empty() && !draft.parts.is_empty(),
        "objects, and no entry committed",
    );
    let times: Vec<u64> = draft
        .committed
        .iter()
        .map(|&part| draft.entry(part).realtime)
        .collect();
    let falls = times.windows(2).position(|pair| pair[1] < pair[0]);
    see(falls.is_none() && times.len() > 1, "no realtime falling");
    see(falls.is_some(), "a realtime falling");
    let over = |pair: &[u64]| pair[0] >= 1 << 63 && pair[1] < 1 << 63;
    see(times.windows(2).any(over), "a realtime falling over 2^63");
    if let Some(place) = falls {
        let (before, after) = times.split_at(place + 1);
        let highest = before.iter().max();
        see(after.iter().max() > highest, "a realtime risen again");
        see(
            times.first() > times.last(),
            "a tail realtime below the head's",
        );
    }
    for (number, part) in draft.parts.iter().enumerate() {
        let at = made.offsets[number];
        match part {
            Part::Tag => see(true, "a TAG"),
            Part::Foreign { .. } => see(true, "a foreign type"),
            Part::Entry(entry) => {
                let committed = draft.committed.contains(&number);
                see(!committed, "an uncommitted ENTRY");
                see(
                    !committed && at < last,
                    "an uncommitted ENTRY below the last committed",
                );
                see(committed && entry.seqnum >= 1 << 63, "a seqnum past 2^63");
                see(
                    entry.items.iter().any(|&item| made.offsets[item] > at),
                    "a DATA after its ENTRY",
                );
            }
            Part::Field(field) => {
                see(field.chained.is_none(), "a FIELD off its chain");
                let heads = made.word(at + 32) != 0;
                see(
                    field.chained.is_none() && heads,
                    "a FIELD off its chain with a list",
                );
            }
            Part::Array(array) => {
                see(
                    array.items.contains(&Item::End),
                    "a spare item with the next offset",
                );
                let size = draft.layout.array_size(array.items.len() as u64);
                let padded = size % 8 != 0;
                see(padded, "an odd number of items in an array");
                see(
                    padded && made.image[(at + size) as usize..][..4] != [0; 4],
                    "padding that is not 0",
                );
            }
            Part::Data(it) => {
                let counted = counted(&journal.image, at).expect("opens");
                let above = counted.iter().position(|&offset| offset > last);
                see(above == Some(0), "entry_offset above the last committed");
                see(
                    above.is_some_and(|place| list(&counted[place..], last).len() > 0),
                    "above the last in the middle",
                );
                see(
                    it.n_entries == 0 && made.word(at + data::ENTRY_OFFSET) != 0,
                    "count 0, stale entry_offset",
                );
                see(
                    it.n_entries == 0 && it.entry_array.is_some(),
                    "count 0, stale entry_array",
                );
                see(it.chained.is_none(), "a DATA off its chain");
                let equal = draft.parts.iter().filter(
                    |other| matches!(other, Part::Data(data) if data.payload == it.payload),
                );
                see(equal.count() > 1, "equal payloads, not both on the chains");
                let shares = |other: &Part| matches!(other, Part::Data(data) if data.n_entries > 1 && data.entry_array == it.entry_array);
                see(
                    it.n_entries > 1
                        && draft.parts.iter().filter(|other| shares(other)).count() > 1,
                    "counted arrays shared",
                );
                see(
                    it.chained.is_none() && made.word(at + data::NEXT_HASH_OFFSET) != 0,
                    "a link off the chains",
                );
                see(
                    !it.listed && made.word(at + data::NEXT_FIELD_OFFSET) != 0,
                    "a link off the lists",
                );
                see(
                    journal
                        .image
                        .lands(made.word(at + data::ENTRY_ARRAY_OFFSET), 6)
                        && it.entry_array == draft.entry_array,
                    "the global array in a DATA",
                );
            }
        }
    }
    seen
}

/// Counts each once.
pub fn count(table: &mut BTreeMap<&'static str, u64>, mut seen: Vec<&'static str>) {
    seen.sort();
    seen.dedup();
    for what in seen {
        *table.entry(what).or_default() += 1;
    }
}

#[test]
fn good_images_have_every_freedom() {
    let mut table = BTreeMap::new();
    for seed in 0..4_000 {
        count(&mut table, freedoms(&good::good(&mut Random::new(seed))));
    }
    for (what, times) in &table {
        println!("{times:>6} {what}");
    }
    assert_eq!(table.len(), 42);
    assert!(table.values().all(|&times| times >= 40));
}
