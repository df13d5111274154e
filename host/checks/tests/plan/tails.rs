//! The tail fields of a DATA in a compact file: what 14 wants of them, and what an append stores.
use checks::generator::draft::{array_of, numbered, Data, Draft, Field, Item, Part};
use checks::generator::frame::set;
use checks::generator::render::render;
use checks::generator::worked::request;
use checks::random::Random;
use reading::image::{le32, le64, Image};
use reading::layout::{data, header, Layout};
use reading::request::packed;

use crate::made::Tried;

/// Where the last of so many counted entries of the DATA stands: in which of the arrays of 2, 1 and 3
/// items, and as which of its items. The first is in no array.
const TAILS: [(usize, u32); 8] = [
    (3, 0),
    (3, 0),
    (0, 1),
    (0, 2),
    (1, 1),
    (2, 1),
    (2, 2),
    (2, 3),
];

/// A compact file whose only DATA has a chain of arrays of 2, 1 and 3 items, with so many entries. Where
/// the DATA stands, and the arrays, and 0 for none.
fn ahead(header_size: u64, entries: usize) -> (Vec<u8>, u64, [u32; 4]) {
    let item = |n: usize| match n < entries {
        true => Item::Entry(6 + n),
        false => Item::Raw(0),
    };
    let array = |next, places| array_of(next, places, item);
    let mut parts = vec![
        Part::Data(Data {
            payload: b"A=1".to_vec(),
            chained: Some(0),
            listed: true,
            entry_offset: item(0),
            entry_array: Some(2),
            n_entries: entries as u64,
        }),
        Part::Field(Field {
            name: b"A".to_vec(),
            chained: Some(0),
            heads: true,
        }),
        array(Some(3), 1..3),
        array(Some(4), 3..4),
        array(None, 4..7),
        array(None, 0..9),
    ];
    parts.extend(numbered(entries, [5; 16], &[0]));
    let draft = Draft {
        header_size,
        layout: Layout::Compact,
        committed: (6..6 + entries).collect(),
        entry_array: Some(5),
        spare: 1_600,
        noise: true,
        ..Draft::of(parts)
    };
    let made = render(&draft, &mut Random::new(7));
    let arrays = [2, 3, 4].map(|part| made.offsets[part] as u32);
    let [one, two, three] = arrays;
    (made.image, made.offsets[0], [one, two, three, 0])
}

fn tail_fields(image: &[u8], at: u64) -> (u32, u32) {
    (
        le32(image, at + data::TAIL_ENTRY_ARRAY_OFFSET),
        le32(image, at + data::TAIL_ENTRY_ARRAY_N_ENTRIES),
    )
}

/// Each field at many values: 14 but for the right one, of a DATA of every count from 0 to 7.
#[test]
fn each_field_alone() {
    let mut tried = Tried::default();
    // The DATA is one of the append's, or it is not.
    for fields in [packed(&[b"A=1", b"B=2"]), packed(&[b"B=2"])] {
        for (count, header_size) in (0..=7).flat_map(|count| [(count, 256), (count, 272)]) {
            let (image, at, arrays) = ahead(header_size, count);
            let ask = request(&fields, 8, 8, 8);
            let right = (arrays[TAILS[count].0], TAILS[count].1);
            assert_eq!(tail_fields(&image, at), right);
            assert_eq!(tried.append(&image, ask), 0);
            let global = le64(&image, header::ENTRY_ARRAY_OFFSET) as u32;
            for (at, right) in [
                (at + data::TAIL_ENTRY_ARRAY_OFFSET, right.0),
                (at + data::TAIL_ENTRY_ARRAY_N_ENTRIES, right.1),
            ] {
                let mut values = vec![0, 1, 2, 3, 4, 6, 7, 8, global, u32::MAX];
                values.extend(arrays);
                values.extend([1, 8, 24].map(|far| right.wrapping_add(far)));
                values.extend([1, 8, 24].map(|far| right.wrapping_sub(far)));
                values.extend((0..32).map(|bit| right ^ 1 << bit));
                for value in values {
                    let mut image = image.clone();
                    image[at as usize..][..4].copy_from_slice(&value.to_le_bytes());
                    let number = if value == right { 0 } else { 14 };
                    assert_eq!(tried.append(&image, ask), number, "{count}: {value}");
                }
            }
            // The two halves in each other's place.
            let mut swapped = image.clone();
            let word = u64::from(right.0) << 32 | u64::from(right.1);
            set(&mut swapped, at + data::TAIL_ENTRY_ARRAY_OFFSET, word);
            assert_eq!(tried.append(&swapped, ask), if count < 2 { 0 } else { 14 });
        }
    }
    tried.print("each tail field alone");
}

/// Appends through arrays that are chained ahead, and past their end: in group 5 are the count and, from
/// the second entry on, the tail word behind it.
#[test]
fn stored_by_appends() {
    let mut tried = Tried::default();
    let fields = packed(&[b"A=1"]);
    for header_size in [256, 272] {
        let (mut image, at, arrays) = ahead(header_size, 0);
        let mut last = (0, 0);
        for n in 1..=13 {
            let stores = tried.carried(&mut image, request(&fields, n, n, n));
            let entry = stores[1].0;
            let right = match n {
                1..=7 => (arrays[TAILS[n as usize].0], TAILS[n as usize].1),
                // Twice three items, of a new array behind the new ENTRY of 72 bytes.
                8 => (entry as u32 + 72, 1),
                _ => (last.0, n as u32 - 7),
            };
            assert_eq!(tail_fields(&image, at), right);
            let place = |offset: u64| stores.iter().position(|store| store.0 == offset);
            let count = place(at + data::N_ENTRIES).expect("it is stored");
            let tail = place(at + data::TAIL_ENTRY_ARRAY_OFFSET);
            assert_eq!(tail, (n > 1).then_some(count + 1));
            assert_eq!(stores[count + 1 + usize::from(n > 1)].0, header::BOOT_ID);
            last = right;
        }
        let first = le64(&image, at + data::ENTRY_ARRAY_OFFSET);
        let rooms = Image::walked(&image)
            .arrays(first)
            .iter()
            .map(|it| (it.size - 24) / 4)
            .collect::<Vec<u64>>();
        assert_eq!(rooms, [2, 1, 3, 6]);
    }
}
