//! Working out a batch on a file of the greatest length, against its entries one by one, each planned and
//! carried out before the next, and against opening the file once.
use crate::open::{facts, full_but, payloads, Full};
use crate::timing::least_long;
use checks::random::Random;
use reading::request::packed;
use std::hint::black_box;
use wrapper::raw::{self, Request};
use wrapper::{stores_batch, Batch};

const MACHINE: [u8; 16] = [2; 16];
const BOOT: [u8; 16] = [3; 16];
/// The number of the first entry, above all that a file has.
const FIRST: u64 = 1_000_000;

/// Thirty entries such as the file has, on the same files as the plan.
pub fn batches(full: &[Full]) {
    println!(
        "{:<48} {:>8} {:>14} {:>14} {:>14} {:>10} {:>10}",
        "batch", "stores", "batch ns", "one by one ns", "open ns", "openings", "one by one"
    );
    let random = &mut Random::new(9);
    let as_logged: Vec<Vec<Vec<u8>>> = (0..30).map(|n| payloads(random, FIRST + n)).collect();
    for full in full {
        batch("30 as logged", full, &as_logged);
    }
    // As many new payloads as 32 entries may have, which take more bytes than those files have left.
    let value = |n: u64| format!("FIELD{}=a new value {n}", n % 9).into_bytes();
    let new: Vec<Vec<Vec<u8>>> = (0..32)
        .map(|entry| (64 * entry..64 * entry + 64).map(value).collect())
        .collect();
    for keyed in [false, true] {
        let full = full_but(keyed, 65_536, 1 << 18);
        batch("32 of 64 new payloads", &full, &new);
    }
}

/// The times of one batch, how many openings it takes, and how many times as long its entries take one by
/// one.
fn batch(what: &str, full: &Full, entries: &[Vec<Vec<u8>>]) {
    let packs: Vec<Vec<u8>> = entries
        .iter()
        .map(|payloads| packed(&payloads.iter().map(|it| &it[..]).collect::<Vec<_>>()))
        .collect();
    let requests: Vec<Request> = packs
        .iter()
        .zip(FIRST..)
        .map(|(fields, n)| request(fields, n))
        .collect();
    let mut batch = Batch::new();
    for request in &requests {
        batch.add(request.into()).expect("it is short");
    }
    let image = &full.image;
    let stores = stores_batch(image, &MACHINE, batch.packed()).expect("the batch is taken");
    let count = stores.len() / 16;
    let (mut list, mut one_list) = (vec![0; stores.len()], vec![0; 16 * 4_096]);
    let (mut file, undo) = (image.clone(), undo(image, &stores));
    let [batch, one_by_one, open] = least_long(
        12,
        [
            &mut || {
                let entries = black_box(batch.packed());
                let answer = raw::plan_batch(black_box(image), &MACHINE, entries, &mut list);
                assert_eq!(answer.refusal, 0);
            },
            &mut || {
                for request in &requests {
                    let answer = raw::plan(black_box(&file), black_box(request), &mut one_list);
                    assert_eq!(answer % 256, 0);
                    assert_eq!(raw::carry_out(&mut file, &one_list, answer / 256), 0);
                }
                // The file as it was, for the next round.
                assert_eq!(raw::carry_out(&mut file, &undo, count as u64), 0);
            },
            &mut || assert_eq!(raw::open(black_box(image)), 0),
        ],
    );
    assert!(list == stores && file == *image);
    println!(
        "{:<48} {count:>8} {batch:>14.1} {one_by_one:>14.1} {open:>14.1} {:>10.2} {:>10.2}",
        format!("{}, {what}", full.label),
        batch / open,
        one_by_one / batch
    );
}

fn request(fields: &[u8], n: u64) -> Request<'_> {
    let [seqnum, realtime, monotonic] = facts(n);
    Request {
        machine: &MACHINE,
        boot: &BOOT,
        seqnum,
        realtime,
        monotonic,
        fields,
    }
}

/// Stores of what stands in the image at the places that a list stores to.
fn undo(image: &[u8], stores: &[u8]) -> Vec<u8> {
    let old = |store: &[u8]| {
        let at = u64::from_le_bytes(store[..8].try_into().expect("8 bytes")) as usize;
        [&store[..8], &image[at..at + 8]].concat()
    };
    stores.chunks_exact(16).flat_map(old).collect()
}
