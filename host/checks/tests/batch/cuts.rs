//! Every cut of batches that the archive works out and carries out: each image opens, and every lookup
//! answers as on the file with the entries appended one by one whose commit stores arrived. Carried out
//! once more after any cut, the list leaves the file with all of them.
use checks::against::batch::Batch;
use checks::against::batch_cuts::{cuts, taken, Taken};
use checks::against::plan::Append;
use checks::generator::ahead::ahead;
use checks::generator::batches::{good, Case};
use checks::generator::render::render;
use checks::generator::unheld::unheld;
use checks::generator::worked::{first, request, second, LAST};
use checks::random::Random;
use reading::batch::{packed, requests};
use reading::carry::stores;
use reading::image::le64;
use reading::layout::header;
use wrapper::{raw, stores_batch};

use crate::made::{made, numbered, Tried as Asked, MACHINE, WRITTEN};

#[derive(Default)]
struct Tried {
    batches: u64,
    cuts: u64,
    answers: u64,
}

impl Tried {
    /// Cuts a batch everywhere and asks one question in `step` at each cut.
    fn cut(&mut self, image: &[u8], machine_id: [u8; 16], entries: &[u8], step: usize) -> Taken {
        let batch = Batch::new(image, machine_id, entries);
        let taken = taken(&batch, self.batches);
        let taken = taken
            .unwrap_or_else(|difference| panic!("{difference}"))
            .expect("taken");
        let answers = cuts(&taken, step).unwrap_or_else(|difference| panic!("{difference}"));
        self.batches += 1;
        self.cuts += taken.list.len() as u64 / 16 + 1;
        self.answers += answers;
        taken
    }

    fn case(&mut self, case: &Case, step: usize) -> Taken {
        self.cut(&case.image, case.machine_id, &case.entries(), step)
    }

    fn print(&self, what: &str) {
        let Tried {
            batches,
            cuts,
            answers,
        } = self;
        println!("{what}: {batches} batches, {cuts} cuts, {answers} answers");
    }
}

/// The worked examples as one batch.
#[test]
fn worked_examples() {
    let mut tried = Tried::default();
    for kind in WRITTEN {
        let image = made(kind, 1024, 1);
        let (first, second) = (first(), second());
        let entries = packed(&[
            request(&first, LAST, 1700000000000000, 50),
            request(&second, LAST + 1, 1700000000000001, 60),
        ]);
        tried.cut(&image, MACHINE, &entries, 9);
    }
    tried.print("worked examples");
    assert_eq!(tried.cuts, 2 * (104 + 108 + 99 + 103));
}

/// Batches of every kind that is taken.
#[test]
fn batches_cut_everywhere() {
    let mut tried = Tried::default();
    for seed in 0..45 {
        let case = good(&mut Random::new(seed + 71_000));
        tried.case(&case, 151);
    }
    tried.print("batches cut everywhere");
    assert!(tried.cuts > 8_000);
}

/// Payloads, names, cells and arrays that an earlier entry brings; DATA of count 0; arrays chained ahead.
#[test]
fn entries_that_share() {
    let mut tried = Tried::default();
    let shared: &[&[&str]] = &[
        &["LOT=1", "NEW=1"],
        &["LOT=1", "NEW=2", "A=1"],
        &["NEW=1", "LOT=2", "A=1"],
        &["LOT=4", "A=1"],
        &["A=1", "LOT=1"],
        &["A=1", "LOT="],
    ];
    for (layout, header_size, keyed) in WRITTEN {
        let images = [
            made((layout, header_size, keyed), 8_192, 1),
            render(
                &unheld(layout, header_size, keyed, false),
                &mut Random::new(1),
            )
            .image,
            render(
                &unheld(layout, header_size, keyed, true),
                &mut Random::new(2),
            )
            .image,
            render(&ahead(layout, header_size, keyed, 0), &mut Random::new(3)).image,
            render(&ahead(layout, header_size, keyed, 4), &mut Random::new(4)).image,
        ];
        for image in images {
            // The arena of some is too short for all.
            let count = (1..=6)
                .rev()
                .find(|&count| {
                    let entries = numbered(50, &shared[..count]);
                    Batch::new(&image, MACHINE, &entries).need().is_some()
                })
                .expect("one fits");
            tried.cut(&image, MACHINE, &numbered(50, &shared[..count]), 311);
        }
    }
    tried.print("entries that share");
}

/// A cut inside an entry is byte for byte the cut of that entry's own append, its group 1 included, on the
/// file left by those before it.
#[test]
fn the_cut_of_its_own_append() {
    let mut cuts = 0;
    for seed in 0..60 {
        let case = good(&mut Random::new(seed + 72_000));
        let entries = case.entries();
        let batch = Batch::new(&case.image, case.machine_id, &entries);
        let Ok(Ok(Taken { list, files, .. })) = taken(&batch, seed) else {
            panic!("taken, and no difference");
        };
        let mut k = 0;
        for (file, request) in files
            .iter()
            .zip(requests(&entries, case.machine_id).expect("taken"))
        {
            let append = Append::new(file, request);
            let need = append.need().expect("taken");
            let (_, own) = append.put(16 * need, seed).expect("no difference");
            // From its group 1 up to its commit store.
            for stores in 1..need {
                let (mut cut, mut should) = (case.image.clone(), file.clone());
                assert_eq!(raw::carry_out(&mut cut, &list, (k + stores) as u64), 0);
                assert_eq!(raw::carry_out(&mut should, &own, stores as u64), 0);
                assert!(cut == should, "{stores} stores of an entry's own {need}");
                cuts += 1;
            }
            k += need - 2;
        }
        assert_eq!(16 * (k + 2), list.len());
    }
    println!("the cut of its own append: {cuts} cuts");
    assert!(cuts > 5_000);
}

/// What a host meets after a cut: 13, from the first store up to the last but one; then the next batch is
/// taken.
#[test]
fn another_batch_after_a_cut() {
    let mut asked = Asked::default();
    let payloads: &[&[&str]] = &[&["A=1"], &["A=1", "B=1"], &["B=1"]];
    for kind in WRITTEN {
        let image = made(kind, 8_192, 2);
        let entries = numbered(1, payloads);
        let batch = Batch::new(&image, MACHINE, &entries);
        let Ok(Ok(Taken { list, .. })) = taken(&batch, 0) else {
            panic!("taken, and no difference");
        };
        let count = list.len() as u64 / 16;
        for k in 0..=count {
            let mut cut = image.clone();
            assert_eq!(raw::carry_out(&mut cut, &list, k), 0);
            let number = if k == 0 || k == count { 0 } else { 13 };
            let next = numbered(10, payloads);
            assert_eq!(asked.batch(&cut, MACHINE, &next).refusal, number, "{k}");
            // The same batch again is taken before the first store alone.
            let number = [0, 13, 17][usize::from(k > 0) + usize::from(k == count)];
            assert_eq!(asked.batch(&cut, MACHINE, &entries).refusal, number, "{k}");
        }
    }
}

/// The commit stores of a list count the entries one by one, and nothing else stores n_entries.
#[test]
fn commit_stores() {
    for seed in 0..100 {
        let case = good(&mut Random::new(seed + 73_000));
        let entries = case.entries();
        let list = stores_batch(&case.image, &case.machine_id, &entries).expect("taken");
        let before = le64(&case.image, header::N_ENTRIES);
        let commits = stores(&list).into_iter();
        let commits = commits.filter(|it| it.offset == header::N_ENTRIES);
        let counts = (1..=case.asked.len() as u64).map(|n| before + n);
        assert!(commits.map(|it| it.value).eq(counts));
    }
}
