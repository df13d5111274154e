//! Bytes that are no part of the file, and may already hold what will stand there.
use checks::against::batch::Batch;
use checks::generator::batches::{good, stale};
use checks::random::Random;
use reading::image::{arena_end, le64, Image};
use reading::layout::{array, kind};

use crate::made::Tried;

/// Free bytes behind the tail object are no part of the file: whatever they hold, also what will stand
/// there, the list is the same.
#[test]
fn bytes_behind_the_end() {
    let (mut tried, mut words) = (Tried::default(), 0);
    for seed in 0..150 {
        let random = &mut Random::new(seed + 66_000);
        let case = good(random);
        let entries = case.entries();
        let batch = Batch::new(&case.image, case.machine_id, &entries);
        let need = batch.need().expect("taken");
        let (_, list) = tried.with_list(&batch, 16 * need);
        let image = Image::walked(&case.image);
        let end = image.objects[image.objects.len() - 1].next() as usize;
        let files = &batch.read.as_ref().expect("taken").files;
        for later in &files[1..] {
            let mut stale = case.image.clone();
            let last = arena_end(&case.image) as usize;
            stale[end..last].copy_from_slice(&later[end..last]);
            words += (last - end) / 8;
            let batch = Batch::new(&stale, case.machine_id, &entries);
            assert!(tried.with_list(&batch, 16 * need).1 == list);
        }
    }
    tried.print("bytes behind the end");
    assert!(words > 10_000);
}

/// A spare item of an old array that holds the offset to come is not stored: one store less for each word.
#[test]
fn spare_items_there_already() {
    let (mut tried, mut fewer) = (Tried::default(), 0);
    for seed in 0..200 {
        let random = &mut Random::new(seed + 67_000);
        let case = good(random);
        let entries = case.entries();
        let batch = Batch::new(&case.image, case.machine_id, &entries);
        let files = &batch.read.as_ref().expect("taken").files;
        let image = stale(random, &case.image, &files[files.len() - 1]);
        let with = Batch::new(&image, case.machine_id, &entries);
        assert_eq!(tried.whole(&with).refusal, 0);
        let arrays = Image::walked(&image).of_kind(kind::ENTRY_ARRAY);
        let items = |at: u64| {
            let mut all = arrays.iter();
            all.any(|it| (it.offset + array::ITEMS..it.next() as u64).contains(&at))
        };
        let less = batch.need().expect("taken") - with.need().expect("taken");
        let there = |at: &u64| items(*at) && le64(&image, *at) != le64(&case.image, *at);
        let words = (0..image.len() as u64 / 8)
            .map(|n| 8 * n)
            .filter(there)
            .count();
        // In a compact file two entries may store to one word, and it holds both offsets.
        assert!(
            less <= 2 * words && (words == 0) == (less == 0),
            "{less}, {words}"
        );
        fewer += less;
    }
    tried.print("spare items there already");
    assert!(fewer > 100, "{fewer}");
}
