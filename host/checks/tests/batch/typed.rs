//! The wrapper's typed answers to a batch are the archive's numbers: nothing is lost and nothing is made up.
use checks::generator::batches::any;
use checks::random::Random;
use wrapper::{all_entries, carry_out, new, plan_batch, raw, stores_batch};
use wrapper::{Batch, Fields, NewEntry, PlannedBatch, Refusal, RefusedBatch};

/// The numbers of a batch's answer.
fn numbers(planned: PlannedBatch) -> (u64, u64, u64) {
    match planned {
        PlannedBatch::Refused(RefusedBatch { refusal, index }) => {
            // An index comes with 16 to 18 alone.
            assert_eq!(index.is_some(), (16..=18).contains(&refusal.number()));
            (refusal.number(), index.unwrap_or(0), 0)
        }
        PlannedBatch::TooShort { need } => (19, 0, need),
        PlannedBatch::Stores { count } => (0, 0, count),
    }
}

/// Batches packed by the wrapper, with lists that are long enough and that are not.
#[test]
fn answers() {
    let mut tried = [0; 26];
    for seed in 0..400 {
        let random = &mut Random::new(seed + 81_000);
        let mut case = any(random);
        if seed % 8 == 0 {
            case.asked.clear();
        }
        let mut batch = Batch::new();
        for asked in &case.asked {
            let entry = NewEntry {
                boot: &asked.boot_id,
                seqnum: asked.seqnum,
                realtime: asked.realtime,
                monotonic: asked.monotonic,
                fields: &asked.fields,
            };
            batch.add(entry).expect("4 bytes hold its length");
        }
        let (image, machine, entries) = (&case.image, &case.machine_id, batch.packed());
        assert_eq!(entries, case.entries());
        let mut list = vec![0; 16 * random.below(300)];
        let is = raw::plan_batch(image, machine, entries, &mut list.clone());
        let typed = plan_batch(image, machine, entries, &mut list);
        assert_eq!(numbers(typed), (is.refusal, is.index, is.stores));
        tried[is.refusal as usize] += 1;
        let mut long = vec![0; 16 * 20_000];
        match stores_batch(image, machine, entries) {
            Err(refused) => assert_eq!(typed, PlannedBatch::Refused(refused)),
            Ok(stores) => {
                let count = raw::plan_batch(image, machine, entries, &mut long).stores;
                assert_eq!(stores, long[..16 * count as usize]);
            }
        }
    }
    assert!(
        [0, 16, 17, 18, 19, 22].iter().all(|&it| tried[it] > 2),
        "{tried:?}"
    );
}

/// A list that `stores_batch` has to lengthen: 64 payloads in each of 32 entries.
#[test]
fn a_long_batch() {
    let mut image = vec![0; 1 << 20];
    new(&mut image, &[7; 64], 500, 9, true, 272).expect("it is made");
    let mut batch = Batch::new();
    for seqnum in 1..=32 {
        let mut fields = Fields::new();
        for n in 0..64 {
            fields
                .add("VALUE", format!("{seqnum} {n}"))
                .expect("a name");
        }
        let fields = fields.packed();
        let boot = &[7; 16];
        let (realtime, monotonic) = (seqnum, seqnum);
        let entry = NewEntry {
            boot,
            seqnum,
            realtime,
            monotonic,
            fields,
        };
        batch.add(entry).expect("it is short");
    }
    let list = stores_batch(&image, &[7; 16], batch.packed()).expect("taken");
    let count = list.len() as u64 / 16;
    assert!(count > 8_192, "{count} stores");
    carry_out(&mut image, &list, count).expect("of this image");
    let entries = all_entries(&image).expect("it opens");
    assert!(entries.len() == 32 && entries.iter().all(|it| it.payloads.len() == 64));
}

/// A refused batch in words: the entry as a person counts, where one is to blame.
#[test]
fn words() {
    for (number, index) in [(16, Some(0)), (18, Some(31)), (22, None), (13, None)] {
        let refusal = Refusal::new(number).expect("not 0");
        let words = RefusedBatch { refusal, index }.to_string();
        let expected = match index {
            Some(index) => format!("entry {} of the batch: {refusal}", index + 1),
            None => refusal.to_string(),
        };
        assert_eq!(words, expected);
    }
}
