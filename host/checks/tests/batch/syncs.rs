//! Where a host syncs that carries a batch out. `Batch` compares the points of every batch with the reading;
//! here they are counted, and a disk holds any of the stores between two of them.
use checks::against::batch::Batch;
use checks::against::batch_cuts::{orders, taken};
use checks::generator::batches::good;
use checks::random::Random;
use wrapper::{between_syncs, carry_out, sync_points};

use crate::made::{made, numbered, Tried, MACHINE, WRITTEN};

/// Five an entry, and one more.
#[test]
fn of_1_to_32_entries() {
    let mut tried = Tried::default();
    for (kind, count) in WRITTEN
        .into_iter()
        .flat_map(|kind| (1..=32).map(move |n| (kind, n)))
    {
        let image = made(kind, 16_384, 2);
        let entries = numbered(1, &vec![&["A=1", "B=2"][..]; count]);
        let batch = Batch::new(&image, MACHINE, &entries);
        let (_, list) = tried.with_list(&batch, 16 * batch.need().expect("taken"));
        let points = sync_points(&list);
        assert_eq!(points.len(), 5 * count + 1);
        let mut parts = image.clone();
        for part in between_syncs(&list) {
            assert_eq!(carry_out(&mut parts, part, part.len() as u64 / 16), Ok(()));
        }
        assert!(parts == batch.read.expect("taken").files[count]);
    }
}

/// The points by the groups: behind 1 and 2 of the first entry and behind 2 of each later one, behind 3, 4,
/// 5 and 6, and 7 of each, and behind 8; none where there is no store.
#[test]
fn by_the_groups() {
    let mut without_links = 0;
    for seed in 0..300 {
        let case = good(&mut Random::new(seed + 74_000));
        let entries = case.entries();
        let batch = Batch::new(&case.image, case.machine_id, &entries);
        let (_, list) = batch
            .put(16 * batch.need().expect("taken"), seed)
            .unwrap_or_else(|difference| panic!("{difference}"));
        let groups = batch.read.expect("taken").groups;
        let stores = |n: usize| groups[n].1.len();
        let mut ends = Vec::new();
        let mut end = stores(0);
        for n in 0..case.asked.len() {
            // Groups 2 to 7 of the entry.
            let at = 1 + 6 * n;
            for together in [
                vec![at],
                vec![at + 1],
                vec![at + 2],
                vec![at + 3, at + 4],
                vec![at + 5],
            ] {
                let count: usize = together.iter().map(|&n| stores(n)).sum();
                end += count;
                match count {
                    0 => without_links += 1,
                    _ => ends.push(end),
                }
            }
        }
        ends.push(end + 1);
        assert_eq!(sync_points(&list), ends);
    }
    println!("by the groups: {without_links} entries without links");
    assert!(without_links > 3);
}

/// Crash states between two syncs: a disk may hold any of the stores, in any order.
#[test]
fn any_stores_between_syncs() {
    let (mut batches, mut images) = (0, 0);
    for seed in 0..40 {
        let random = &mut Random::new(seed + 75_000);
        let case = good(random);
        let entries = case.entries();
        let batch = Batch::new(&case.image, case.machine_id, &entries);
        let Ok(Ok(taken)) = taken(&batch, seed) else {
            panic!("taken, and no difference");
        };
        images +=
            orders(&taken, (6, 151), random).unwrap_or_else(|difference| panic!("{difference}"));
        batches += 1;
    }
    println!("any stores between syncs: {batches} batches, {images} images");
    assert!(images > 2_500);
}
