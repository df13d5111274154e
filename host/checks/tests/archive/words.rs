//! The example with words of its image changed, one by one.
use super::example::*;
use super::open::tried;
use checks::against::trial::with;
use checks::generator::rendered::Rendered;
use reading::image::{le32, le64, Image};
use reading::layout::{array, data, entry, field, header, Layout};

/// A way to change an image.
type Change = fn(&mut Rendered);

/// Each layout with each hash.
const LAYOUTS: [(Layout, bool); 4] = [
    (Layout::Regular, false),
    (Layout::Regular, true),
    (Layout::Compact, false),
    (Layout::Compact, true),
];

/// Where the second item of the list stands.
fn second_listed(it: &Rendered) -> u64 {
    it.offsets[LIST] + array::ITEMS + it.draft.layout.array_item()
}

#[test]
fn words_one_by_one() {
    let mut tried = tried();
    let cases: [(&str, u64, Change); 30] = [
        ("ENTRY items falling", 8, |it| {
            let items = it.offsets[FIRST] + entry::ITEMS;
            let next = items + it.draft.layout.entry_item();
            let (one, other) = (it.item(items), it.item(next));
            it.set_item(items, other);
            it.set_item(next, one);
        }),
        ("an item of an uncommitted ENTRY that is 0", 8, |it| {
            it.set_item(it.offsets[UNCOMMITTED] + entry::ITEMS, 0)
        }),
        ("a stale entry_offset that is a DATA", 8, |it| {
            let to = it.offsets[LOT];
            it.set(it.offsets[STALE] + data::ENTRY_OFFSET, to)
        }),
        (
            "next_hash of a DATA off the chains that is itself",
            8,
            |it| {
                let to = it.offsets[TWIN];
                it.set(it.offsets[TWIN] + data::NEXT_HASH_OFFSET, to)
            },
        ),
        (
            "next_field of a DATA off the lists that is later",
            8,
            |it| {
                let to = it.offsets[TWIN];
                it.set(it.offsets[STALE] + data::NEXT_FIELD_OFFSET, to)
            },
        ),
        ("head_data that is a FIELD", 8, |it| {
            let to = it.offsets[FIELD_LOT];
            it.set(it.offsets[FIELD_OFF] + field::HEAD_DATA_OFFSET, to)
        }),
        ("entry_array_offset after the tail object", 8, |it| {
            it.set(header::ENTRY_ARRAY_OFFSET, it.arena_end)
        }),
        ("n_entries one more: a committed item 0", 9, |it| {
            it.set(header::N_ENTRIES, 4)
        }),
        ("n_entries above the chain", 9, |it| {
            it.set(header::N_ENTRIES, 5)
        }),
        ("a sequence number falling at 2^63", 9, |it| {
            it.set(it.offsets[FIRST + 1] + entry::SEQNUM, 1)
        }),
        ("a sequence number of 2^64 - 1 at last", 0, |it| {
            it.set(it.offsets[LAST] + entry::SEQNUM, u64::MAX)
        }),
        ("realtime falling by one", 0, |it| {
            let before = it.word(it.offsets[FIRST] + entry::REALTIME);
            it.set(it.offsets[FIRST + 1] + entry::REALTIME, before - 1)
        }),
        ("realtime falling over 2^63", 0, |it| {
            it.set(it.offsets[FIRST + 1] + entry::REALTIME, 1 << 63)
        }),
        ("realtime falling to 0 at last", 0, |it| {
            it.set(it.offsets[LAST] + entry::REALTIME, 0)
        }),
        ("realtime falling from 2^64 - 1", 0, |it| {
            it.set(it.offsets[FIRST] + entry::REALTIME, u64::MAX)
        }),
        ("realtime and monotonic falling, same boot", 9, |it| {
            it.set(it.offsets[LAST] + entry::REALTIME, 0);
            it.set(it.offsets[LAST] + entry::MONOTONIC, 50)
        }),
        ("monotonic falling, same boot", 9, |it| {
            it.set(it.offsets[LAST] + entry::MONOTONIC, 50)
        }),
        ("monotonic falling, another boot", 0, |it| {
            it.set(it.offsets[LAST] + entry::MONOTONIC, 50);
            it.set(it.offsets[LAST] + entry::BOOT_ID + 8, 1);
        }),
        ("n_entries one less: the last entry is above", 0, |it| {
            it.set(header::N_ENTRIES, 2)
        }),
        ("n_entries 0: all entries are above", 0, |it| {
            it.set(header::N_ENTRIES, 0)
        }),
        ("a count without the inline entry", 10, |it| {
            it.set(it.offsets[LOT] + data::N_ENTRIES, 3)
        }),
        ("a count above the chain", 10, |it| {
            it.set(it.offsets[LOT] + data::N_ENTRIES, 5)
        }),
        ("a list in another order", 10, |it| {
            let items = it.offsets[LIST] + array::ITEMS;
            let third = items + 2 * it.draft.layout.array_item();
            let (one, other) = (it.item(items), it.item(third));
            it.set_item(items, other);
            it.set_item(third, one);
        }),
        (
            "a list with an entry between the committed ones",
            10,
            |it| {
                let to = it.offsets[FIRST + 1] + 8;
                it.set_item(second_listed(it), to)
            },
        ),
        ("count 0 and a held DATA", 10, |it| {
            it.set(it.offsets[DUE] + data::N_ENTRIES, 0)
        }),
        ("a counted item 0", 10, |it| {
            it.set_item(second_listed(it), 0)
        }),
        ("an uncommitted ENTRY with a wrong item hash", 11, |it| {
            // A compact file has none: there is xor_hash.
            let at = match it.draft.layout {
                Layout::Regular => entry::ITEMS + 24,
                Layout::Compact => entry::XOR_HASH,
            };
            it.set(it.offsets[UNCOMMITTED] + at, 1)
        }),
        ("an uncommitted ENTRY with a wrong xor_hash", 11, |it| {
            it.set(it.offsets[UNCOMMITTED] + entry::XOR_HASH, 0)
        }),
        ("a wrong hash of a DATA off the chains", 11, |it| {
            it.set(it.offsets[TWIN] + data::HASH, 0)
        }),
        ("a FIELD off its chain with another name", 11, |it| {
            let to = it.offsets[LOT];
            it.set(it.offsets[FIELD_OFF] + field::HEAD_DATA_OFFSET, to)
        }),
    ];
    for (layout, keyed) in LAYOUTS {
        for (what, number, change) in &cases {
            let mut draft = example();
            (draft.layout, draft.keyed) = (layout, keyed);
            let mut made = drawn(&draft);
            change(&mut made);
            assert_eq!(tried.number(&made.image), *number, "{what}");
        }
    }
    tried.print("words one by one");
}

/// Each word of an example at each of some values: what stood there and its neighbours, every
/// object's offset, and numbers at the edges.
#[test]
fn every_word() {
    let mut tried = tried();
    for (layout, keyed) in LAYOUTS {
        let mut draft = example();
        (draft.layout, draft.keyed) = (layout, keyed);
        let image = drawn(&draft).image;
        let mut values: Vec<u64> = Image::walked(&image)
            .objects
            .iter()
            .map(|object| object.offset)
            .collect();
        values.extend([0, 1, 2, 3, 4, 5, 8, 1 << 32, 1 << 63, u64::MAX]);
        for at in (8..image.len() as u64).step_by(8) {
            let is = le64(&image, at);
            let near = [is.wrapping_add(1), is.wrapping_sub(1), is.wrapping_add(8)];
            for &value in near.iter().chain(&values) {
                tried.image(&with(&image, at, value));
            }
        }
    }
    tried.print("every word");
    assert!((3..12).all(|number| number == 3 || tried.answers[number] > 0));
}

/// Each half of a word of a compact file: items stand there, a DATA's tail fields, padding, and parts of
/// longer numbers.
#[test]
fn every_half() {
    let mut tried = tried();
    let mut draft = example();
    (draft.layout, draft.noise) = (Layout::Compact, true);
    let image = drawn(&draft).image;
    let objects = Image::walked(&image).objects;
    let mut values: Vec<u32> = objects.iter().map(|it| it.offset as u32).collect();
    values.extend([0, 1, 4, 8, 16, 20, 1 << 31, u32::MAX]);
    for at in (8..image.len() as u64 - 3).step_by(4) {
        let is = le32(&image, at);
        let near = [is.wrapping_add(1), is.wrapping_sub(1), is ^ 1 << 31];
        for &value in near.iter().chain(&values) {
            let mut image = image.clone();
            image[at as usize..][..4].copy_from_slice(&value.to_le_bytes());
            tried.image(&image);
        }
    }
    tried.print("every half");
    assert!((4..12).all(|number| tried.answers[number] > 0));
}
