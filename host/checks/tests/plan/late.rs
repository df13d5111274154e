//! The header's late fields: what 14 wants of them, and what an append stores.
use checks::generator::draft::{array_of, numbered, Data, Draft, Field, Item, Part};
use checks::generator::frame::set;
use checks::generator::render::render;
use checks::generator::worked::request;
use checks::random::Random;
use reading::image::{le32, le64};
use reading::layout::header::*;
use reading::request::packed;

use crate::made::Tried;

const SIZES: [usize; 3] = [2, 1, 3];
/// Where the last of so many committed items stands: in which of the arrays, and as which of its items.
const TAILS: [(usize, u64); 7] = [(0, 0), (0, 1), (0, 2), (1, 1), (2, 1), (2, 2), (2, 3)];

/// A file whose chain has arrays of these sizes, with so many entries: arrays are chained ahead. The
/// offsets of the arrays, and of the entries.
fn ahead(header_size: u64, entries: usize, compatible_flags: u32) -> (Vec<u8>, [u64; 3], Vec<u64>) {
    let data = Part::Data(Data {
        payload: b"A=1".to_vec(),
        chained: Some(0),
        listed: true,
        entry_offset: match entries {
            0 => Item::Raw(0),
            _ => Item::Entry(6),
        },
        entry_array: Some(5),
        n_entries: entries as u64,
    });
    let field = Part::Field(Field {
        name: b"A".to_vec(),
        chained: Some(0),
        heads: true,
    });
    let item = |n: usize| match n < entries {
        true => Item::Entry(6 + n),
        false => Item::Raw(0),
    };
    let array = |next, places| array_of(next, places, item);
    let mut parts = vec![
        data,
        field,
        array(Some(3), 0..2),
        array(Some(4), 2..3),
        array(None, 3..6),
        array(None, 1..9),
    ];
    assert_eq!(SIZES, [2, 1, 3]);
    parts.extend(numbered(entries, [5; 16], &[0]));
    let draft = Draft {
        header_size,
        compatible_flags,
        committed: (6..6 + entries).collect(),
        entry_array: Some(2),
        // Twelve ENTRYs of 80 bytes, an array of 6 items and one of 16.
        spare: 1_184,
        ..Draft::of(parts)
    };
    let made = render(&draft, &mut Random::new(1));
    let arrays = [2, 3, 4].map(|part| made.offsets[part]);
    (made.image, arrays, made.offsets[6..].to_vec())
}

/// What the three fields have to be.
fn right(arrays: &[u64; 3], entries: &[u64]) -> (u32, u32, u64) {
    match entries.last() {
        None => (0, 0, 0),
        Some(&last) => {
            let (array, count) = TAILS[entries.len()];
            (arrays[array] as u32, count as u32, last)
        }
    }
}

fn late_fields(image: &[u8]) -> (u32, u32, u64) {
    (
        le32(image, TAIL_ENTRY_ARRAY_OFFSET),
        le32(image, TAIL_ENTRY_ARRAY_N_ENTRIES),
        le64(image, TAIL_ENTRY_OFFSET),
    )
}

/// Values that another rule would give, around the right one, and far off in any byte.
fn others(arrays: &[u64; 3], entries: &[u64], right: u64) -> Vec<u64> {
    let mut values = vec![0, 1, 2, 3, 4, 5, 6, 7, 696, 1 << 63, u64::MAX];
    values.extend(arrays.iter().chain(entries));
    values.extend([1, 2, 8, 16, 24].map(|far| right.wrapping_add(far)));
    values.extend([1, 2, 8, 16, 24].map(|far| right.wrapping_sub(far)));
    values.extend((0..64).map(|bit| right ^ 1 << bit));
    values
}

/// Each field at many values: 14 but for the right one, with compatible bit 1 and without it.
#[test]
fn each_field_alone() {
    let mut tried = Tried::default();
    let fields = packed(&[b"A=1", b"B=2"]);
    for (count, flags) in (0..=6).flat_map(|count| [(count, 0), (count, 2)]) {
        let (image, arrays, entries) = ahead(272, count, flags);
        let ask = request(&fields, 7, 7, 7);
        let (array, items, entry) = right(&arrays, &entries);
        assert_eq!(late_fields(&image), (array, items, entry));
        assert_eq!(tried.append(&image, ask), 0);
        for value in others(&arrays, &entries, entry) {
            let mut image = image.clone();
            set(&mut image, TAIL_ENTRY_OFFSET, value);
            let number = if value == entry { 0 } else { 14 };
            assert_eq!(tried.append(&image, ask), number, "{count}: {value}");
        }
        for (at, right) in [
            (TAIL_ENTRY_ARRAY_OFFSET, array),
            (TAIL_ENTRY_ARRAY_N_ENTRIES, items),
        ] {
            for value in others(&arrays, &entries, right.into()) {
                let (mut image, value) = (image.clone(), value as u32);
                image[at as usize..][..4].copy_from_slice(&value.to_le_bytes());
                let number = if value == right { 0 } else { 14 };
                assert_eq!(
                    tried.append(&image, ask),
                    number,
                    "{count}: {value} at {at}"
                );
            }
        }
        // The two halves of a word in each other's place.
        let mut swapped = image.clone();
        set(
            &mut swapped,
            TAIL_ENTRY_ARRAY_OFFSET,
            u64::from(array) << 32 | u64::from(items),
        );
        assert_eq!(tried.append(&swapped, ask), if count == 0 { 0 } else { 14 });
    }
    tried.print("each late field alone");
}

/// Appends through arrays that are chained ahead, and past their end.
#[test]
fn stored_by_appends() {
    let mut tried = Tried::default();
    let fields = packed(&[b"A=1"]);
    for flags in [0, 2] {
        let (mut image, arrays, _) = ahead(272, 0, flags);
        let mut entries = Vec::new();
        for n in 1..=6 {
            let stores = tried.carried(&mut image, request(&fields, n, n, n));
            // The ENTRY is the first new object.
            entries.push(stores[1].0);
            assert_eq!(late_fields(&image), right(&arrays, &entries));
        }
        // Twice three items, of a new array behind the new ENTRY of 80 bytes.
        for n in 7..=12 {
            let stores = tried.carried(&mut image, request(&fields, n, n, n));
            entries.push(stores[1].0);
            let array = entries[6] as u32 + 80;
            let late = (array, n as u32 - 6, entries[n as usize - 1]);
            assert_eq!(late_fields(&image), late);
        }
        assert_eq!(image[8..12], [flags as u8, 0, 0, 0]);
        assert_eq!(tried.append(&image, request(&fields, 13, 0, 13)), 18);
    }
}

/// 14 never looks at the boot id, whatever compatible bit 1 says; and an append to 264 is 25, whatever
/// its two fields say.
#[test]
fn what_is_not_compared() {
    let mut tried = Tried::default();
    let fields = packed(&[b"A=1"]);
    let ask = request(&fields, 7, 7, 7);
    for count in [0, 1, 4, 6] {
        for flags in [0, 2] {
            let (image, ..) = ahead(272, count, flags);
            for boot in [0, 1, 0x0505050505050505, u64::MAX] {
                let mut image = image.clone();
                set(&mut image, BOOT_ID, boot);
                set(&mut image, BOOT_ID + 8, !boot);
                assert_eq!(tried.append(&image, ask), 0);
            }
        }
        let (image, arrays, entries) = ahead(264, count, 0);
        let (array, items, _) = right(&arrays, &entries);
        let word = u64::from(items) << 32 | u64::from(array);
        assert_eq!(le64(&image, TAIL_ENTRY_ARRAY_OFFSET), word);
        for value in others(&arrays, &entries, word) {
            let mut image = image.clone();
            set(&mut image, TAIL_ENTRY_ARRAY_OFFSET, value);
            assert_eq!(tried.append(&image, ask), 25);
        }
        // With a header of 256 there is no such field: the table of the DATA stands there.
        assert_eq!(tried.append(&ahead(256, count, 0).0, ask), 0);
    }
}
