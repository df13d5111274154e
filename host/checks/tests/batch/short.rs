//! 19: a list that is too short, and the need.
use checks::against::batch::Batch;
use checks::generator::batches::good;
use checks::random::Random;
use reading::batch::Answer;

use crate::made::{made, numbered, Tried, MACHINE, WRITTEN};

/// Every length of the list, up to some bytes more than it needs.
#[test]
fn lists_of_every_length() {
    let mut tried = Tried::default();
    for kind in [WRITTEN[0], WRITTEN[3], WRITTEN[5], WRITTEN[6]] {
        let image = made(kind, 4_096, 1);
        let entries = numbered(1, &[&["A=1"], &["A=1", "A=2"], &["A=1"]]);
        let batch = Batch::new(&image, MACHINE, &entries);
        let stores = batch.need().expect("taken") as u64;
        for length in 0..16 * stores + 40 {
            let refusal = if length < 16 * stores { 19 } else { 0 };
            let expected = Answer {
                refusal,
                index: 0,
                stores,
            };
            let (answer, _) = tried.with_list(&batch, length as usize);
            assert_eq!(answer, expected, "{length} bytes");
        }
    }
    tried.print("lists of every length");
}

/// Batches of every kind, one store short.
#[test]
fn one_store_short() {
    let mut tried = Tried::default();
    for seed in 0..300 {
        let case = good(&mut Random::new(seed + 63_000));
        let entries = case.entries();
        let batch = Batch::new(&case.image, case.machine_id, &entries);
        let need = batch.need().expect("taken");
        for (length, refusal) in [(16 * need - 1, 19), (16 * need - 16, 19), (16 * need, 0)] {
            let (answer, _) = tried.with_list(&batch, length);
            assert_eq!((answer.refusal, answer.stores), (refusal, need as u64));
        }
    }
    tried.print("one store short");
}

/// A bad entry is told before a list that is too short, the last one too.
#[test]
fn after_every_entry() {
    let mut tried = Tried::default();
    let image = made(WRITTEN[5], 8_192, 1);
    let good: &[&str] = &["A=1"];
    for index in 0..8 {
        let mut payloads = vec![good; 8];
        payloads[index] = &["A=1", "no field"];
        let entries = numbered(1, &payloads);
        let batch = Batch::new(&image, MACHINE, &entries);
        for length in [0, 15, 16, 16 * 70] {
            let (answer, _) = tried.with_list(&batch, length);
            assert_eq!((answer.refusal, answer.index), (16, index as u64));
        }
    }
}
