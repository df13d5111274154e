//! What entries of one batch have to do with one another: payloads, names, cells and arrays that an earlier
//! one brings and a later one uses. And files that no append made.
use checks::against::batch::Batch;
use checks::against::batch_cuts::{taken, Taken};
use checks::generator::ahead::ahead;
use checks::generator::collide::of_one_hash;
use checks::generator::dice::some_of;
use checks::generator::render::render;
use checks::generator::unheld::unheld;
use checks::generator::worked::request;
use checks::random::Random;
use reading::batch::packed;
use reading::image::Image;
use reading::layout::{data, header, kind};
use reading::request::{packed as fields, Request};

use crate::made::{made, numbered, Tried, MACHINE, WRITTEN};

/// A batch that is taken, with lists of several lengths; it leaves the file that its entries leave one by
/// one.
fn put(tried: &mut Tried, image: &[u8], entries: &[u8]) -> Taken {
    let batch = Batch::new(image, MACHINE, entries);
    assert_eq!(tried.whole(&batch).refusal, 0, "{:?}", batch.read);
    let taken = taken(&batch, tried.tried());
    taken
        .unwrap_or_else(|difference| panic!("{difference}"))
        .expect("taken")
}

/// Entries by their payloads.
type Entries = &'static [&'static [&'static str]];

const SHARED: [Entries; 9] = [
    &[&["A=1"], &["A=1"], &["A=1"]],
    &[&["A=1"], &["A=2"], &["A=3", "A=1"]],
    &[&["A=1", "B=1"], &["B=1", "A=2"], &["A=2", "B=2", "C="]],
    &[&["A=1", "A=1"], &["A=1"], &["A=2", "A=1", "A=2"]],
    &[&["A="], &["AA="], &["AAA="], &["A=", "AA=", "AAA="]],
    &[
        &["A=1"],
        &["B=1"],
        &["C=1"],
        &["C=1", "B=1", "A=1"],
        &["D=1"],
    ],
    &[&["OLD=1"], &["OLD=2"], &["OLD=1", "OLD=2"], &["OLD=3"]],
    &[
        &["NEW=1", "OLD=1"],
        &["NEW=1", "OLD=1"],
        &["NEW=1", "OLD=1"],
    ],
    &[
        &["Z=1", "Y=1", "X=1"],
        &["X=1", "Y=2"],
        &["Y=2", "Z=1"],
        &["X=2", "Y=1"],
    ],
];

/// On a new file, and on one that has OLD=1 once and more often; of one cell each, and of several.
#[test]
fn payloads_names_and_cells() {
    let mut tried = Tried::default();
    for kind in WRITTEN {
        for (cells, before) in [(1, 0), (1, 1), (5, 0), (3, 2), (1, 5), (2, 6)] {
            let mut image = made(kind, 8_192, cells);
            if before > 0 {
                let entries = numbered(1, &vec![&["OLD=1"][..]; before]);
                image = put(&mut tried, &image, &entries).files[before].clone();
            }
            for entries in SHARED {
                put(&mut tried, &image, &numbered(10, entries));
            }
        }
    }
    tried.print("payloads, names and cells");
}

/// Two payloads of one hash are two DATA in one cell, whichever entry brings them.
#[test]
fn payloads_of_one_hash() {
    let mut tried = Tried::default();
    let [one, other] = of_one_hash();
    let (first, second) = (fields(&[&one]), fields(&[&other]));
    let both = fields(&[&other, &one]);
    for kind in WRITTEN {
        let image = made(kind, 8_192, 7);
        for order in [
            [&first, &second, &both],
            [&both, &first, &second],
            [&second, &both, &first],
        ] {
            let asked = order.iter().zip(1..);
            let asked: Vec<Request> = asked.map(|(it, n)| request(it, n, n, n)).collect();
            let taken = put(&mut tried, &image, &packed(&asked));
            let after = Image::walked(&taken.files[3]);
            assert_eq!(after.of_kind(kind::DATA).len(), 2);
        }
    }
}

/// The sizes of a chain's arrays, from a place that has its first one.
fn rooms(image: &Image, at: u64) -> Vec<u64> {
    let arrays = image.arrays(image.word(at));
    arrays.iter().map(|object| image.room(object)).collect()
}

/// Arrays that grow in a batch, of the header and of a DATA: 4, 8, 16 and 32 items.
#[test]
fn arrays_that_grow() {
    let mut tried = Tried::default();
    for kind in WRITTEN {
        let empty = made(kind, 16_384, 1);
        for before in [0, 1, 3, 4, 5, 11, 12, 13] {
            let mut image = empty.clone();
            if before > 0 {
                let entries = numbered(1, &vec![&["A=1"][..]; before]);
                image = put(&mut tried, &image, &entries).files[before].clone();
            }
            for count in [1, 2, 5, 9, 17, 32] {
                let entries = numbered(100, &vec![&["A=1"][..]; count]);
                let taken = put(&mut tried, &image, &entries);
                let after = Image::walked(&taken.files[count]);
                let all = before + count;
                // 4, 12, 28 and 60 items; the DATA's first entry is in no array.
                let arrays = |items: usize| [0, 4, 12, 28].iter().filter(|&&it| it < items).count();
                let expected = |items: usize| [4, 8, 16, 32][..arrays(items)].to_vec();
                assert_eq!(rooms(&after, header::ENTRY_ARRAY_OFFSET), expected(all));
                let data = after.of_kind(kind::DATA)[0].offset;
                assert_eq!(
                    rooms(&after, data + data::ENTRY_ARRAY_OFFSET),
                    expected(all - 1)
                );
                assert_eq!(after.word(data + data::N_ENTRIES), all as u64);
            }
        }
    }
    tried.print("arrays that grow");
}

/// Chains with arrays ahead of the items in use, and past their end.
#[test]
fn arrays_chained_ahead() {
    let mut tried = Tried::default();
    for (layout, header_size, keyed) in WRITTEN {
        for before in 0..=6 {
            let draft = ahead(layout, header_size, keyed, before);
            let image = render(&draft, &mut Random::new(before as u64)).image;
            for count in [1, 2, 3, 7, 16] {
                let entries = numbered(100, &vec![&["A=1"][..]; count]);
                let taken = put(&mut tried, &image, &entries);
                let after = Image::walked(&taken.files[count]);
                let all = before + count;
                let expected = |items: usize| {
                    let arrays = [6, 12].iter().filter(|&&it| it < items).count();
                    [2, 1, 3, 6, 12][..3 + arrays].to_vec()
                };
                assert_eq!(rooms(&after, header::ENTRY_ARRAY_OFFSET), expected(all));
                let data = after.of_kind(kind::DATA)[0].offset;
                assert_eq!(
                    rooms(&after, data + data::ENTRY_ARRAY_OFFSET),
                    expected(all - 1)
                );
            }
        }
    }
    tried.print("arrays chained ahead");
}

/// Old DATA of count 0 that one entry or several of the batch hold.
#[test]
fn old_data_of_count_0() {
    let mut tried = Tried::default();
    let all: [&[u8]; 5] = [b"LOT=1", b"LOT=2", b"LOT=3", b"LOT=", b"LOT=4"];
    for (n, (layout, header_size, keyed)) in WRITTEN.into_iter().enumerate() {
        for with_entry in [false, true] {
            let draft = unheld(layout, header_size, keyed, with_entry);
            let image = render(&draft, &mut Random::new(7)).image;
            let random = &mut Random::new(n as u64 + 65_000);
            for chosen in 1usize..32 {
                let first: Vec<&[u8]> = (0..5)
                    .filter(|n| chosen >> n & 1 == 1)
                    .map(|n| all[n])
                    .collect();
                let mut packs = vec![fields(&first)];
                for _ in 0..3 {
                    let some = some_of(random, &all);
                    if !some.is_empty() {
                        packs.push(fields(&some));
                    }
                }
                let asked = packs.iter().zip(2..);
                let asked: Vec<Request> = asked.map(|(it, n)| request(it, n, 0, n)).collect();
                put(&mut tried, &image, &packed(&asked));
            }
        }
    }
    tried.print("old DATA of count 0");
}
