//! Appends to compact files: what a store of eight bytes keeps.
use checks::against::plan::Append;
use checks::generator::appends;
use checks::generator::worked::request;
use checks::random::Random;
use reading::image::{le32, Image};
use reading::layout::{array, kind, Layout};
use reading::request::packed;
use wrapper::carry_out;

use crate::made::{made_in, Tried};

/// An append changes one item of an array at most, four bytes of it, and nothing of a neighbour or of the
/// padding behind the last one, whatever they hold.
#[test]
fn neighbours_and_padding_stay() {
    let (mut low, mut high, mut padding) = (0, 0, 0);
    for seed in 0..1_500 {
        let case = appends::good(&mut Random::new(seed + 30_000));
        let append = Append::new(&case.image, case.asked.request());
        let Some(need) = append.need() else {
            continue;
        };
        let before = Image::walked(&case.image);
        if before.layout == Layout::Regular {
            continue;
        }
        let put = append.put(16 * need, seed);
        let (_, list) = put.unwrap_or_else(|difference| panic!("{difference}"));
        let mut after = case.image.clone();
        assert_eq!(carry_out(&mut after, &list, need as u64), Ok(()));
        for object in before.of_kind(kind::ENTRY_ARRAY) {
            let from = (object.offset + array::ITEMS) as usize;
            let to = object.next() as usize;
            let halves = |image: &[u8]| -> Vec<u32> {
                let words = image[from..to].chunks_exact(4);
                words.map(|it| le32(it, 0)).collect()
            };
            let (old, new) = (halves(&case.image), halves(&after));
            let changed: Vec<usize> = (0..old.len()).filter(|&n| old[n] != new[n]).collect();
            assert!(changed.len() <= 1, "one entry more in a list");
            let Some(&place) = changed.first() else {
                continue;
            };
            let room = (object.size - array::ITEMS) as usize / 4;
            assert!(place < room, "padding is no item");
            match place % 2 {
                0 => low += 1,
                _ => high += 1,
            }
            padding += u64::from(place + 1 == room && place % 2 == 0 && old[place + 1] != 0);
        }
    }
    println!("items in a low half {low}, in a high one {high}, beside padding {padding}");
    assert!(low > 60 && high > 60 && padding > 10);
}

/// Group 4 has a word where one of its eight bytes changes: with the entry there already it has none,
/// whatever the other half holds.
#[test]
fn a_word_that_stays() {
    let mut tried = Tried::default();
    for header_size in [256, 272] {
        let mut image = made_in(Layout::Compact, header_size, 8192, (1, 1), true);
        let fields = packed(&[b"PRIORITY=2"]);
        let ask = |seqnum: u64| request(&fields, seqnum, 0, 0);
        for seqnum in 1..=2 {
            tried.carried(&mut image, ask(seqnum));
        }
        let words = Image::walked(&image);
        let coming = words.objects[words.objects.len() - 1].next() as u32;
        let arrays = words.of_kind(kind::ENTRY_ARRAY);
        // The header's array has two entries, the DATA's one: the coming item is in the low half of a word
        // with a spare one behind it, and in the high half behind a counted one.
        let global = (arrays[0].offset + array::ITEMS + 8) as usize;
        let listed = (arrays[1].offset + array::ITEMS + 4) as usize;
        let all = Append::new(&image, ask(3)).need().expect("taken");
        for one in [0, 1, coming, coming - 72, coming + 8, u32::MAX] {
            for (other, beside) in [(0, 0), (coming, 0), (coming, u32::MAX), (3, coming)] {
                let mut image = image.clone();
                image[global..][..4].copy_from_slice(&one.to_le_bytes());
                image[global + 4..][..4].copy_from_slice(&beside.to_le_bytes());
                image[listed..][..4].copy_from_slice(&other.to_le_bytes());
                let append = Append::new(&image, ask(3));
                let same = usize::from(one == coming) + usize::from(other == coming);
                assert_eq!(append.need(), Some(all - same));
                assert_eq!(tried.whole(&append), 0);
                let counted = le32(&image, listed as u64 - 4);
                tried.carried(&mut image, ask(3));
                assert_eq!(le32(&image, global as u64 + 4), beside);
                assert_eq!(le32(&image, listed as u64 - 4), counted);
            }
        }
    }
    tried.print("a word that stays");
}
