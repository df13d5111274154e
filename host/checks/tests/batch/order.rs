//! The order of the tests: 1 to 15 of the image and the machine, 22 of the buffer, then entry by entry 16
//! to 18, then 19.
use checks::against::batch::Batch;
use checks::generator::appends::{end_of, targeted, with_arena_to};
use checks::generator::batches::{files, packed};
use checks::generator::dice::once_in;
use checks::generator::frame::set;
use checks::generator::full::full_in;
use checks::generator::requests::Asked;
use checks::generator::{any::any, mutation};
use checks::random::Random;
use reading::image::id;
use reading::layout::{header, Layout};
use reading::refusal::{refusal, APPEND_CLAUSES, CLAUSES};

use crate::made::{fields, numbered, refused, Tried, MACHINE};

/// Buffers that are 22, or 16 at once, or of good entries.
fn buffer(random: &mut Random) -> Vec<u8> {
    let entries = numbered(1, &[&["A=1"], &["A=2", "B=1"]]);
    match random.below(5) {
        0 => Vec::new(),
        1 => vec![0; 44],
        2 => entries[..random.below(entries.len())].to_vec(),
        3 => {
            let length = random.below(200);
            random.bytes(length)
        }
        _ => entries,
    }
}

/// Refusals of the image come first, whatever the buffer is.
#[test]
fn every_clause_of_1_to_11() {
    let mut tried = Tried::default();
    for (number, &clause) in CLAUSES.iter().enumerate() {
        let rounds = if clause.number == 2 { 1 } else { 6 };
        for seed in 0..rounds {
            let random = &mut Random::new(seed + 1_000 * number as u64);
            for image in [
                mutation::targeted(clause, random),
                mutation::combined(clause, random),
            ] {
                let answer = tried.batch(&image, random.array(), &buffer(random));
                // Now and then a mutation misses its clause.
                let number = refusal(&image);
                assert!(number == 0 || answer == refused(number, 0), "{answer:?}");
            }
        }
    }
    tried.print("1 to 11 before all others");
    assert!(tried.0[1..=11].iter().all(|&n| n > 0));
}

/// So do 12, 25, 13, 14 and 15.
#[test]
fn every_clause_of_12_to_15() {
    let mut tried = Tried::default();
    for (number, &clause) in APPEND_CLAUSES.iter().enumerate() {
        if (16..=19).contains(&clause.number) {
            continue;
        }
        for seed in 0..15 {
            let random = &mut Random::new(seed + 1_000 * number as u64);
            let case = targeted(clause, random);
            let machine_id = case.asked.machine_id;
            // The same image with entries of its own, and with any buffer.
            let own = packed(&[case.asked.clone(), case.asked]);
            let answer = tried.batch(&case.image, machine_id, &own);
            let buffer = buffer(random);
            assert_eq!(tried.batch(&case.image, machine_id, &buffer), answer);
            assert!([12, 25, 13, 14, 15].contains(&answer.refusal), "{clause:?}");
        }
    }
    tried.print("12 to 15 before 22");
    assert!([12, 25, 13, 14, 15].iter().all(|&it| tried.0[it] > 10));
}

/// Images of every kind, good and damaged.
#[test]
fn any_images() {
    let mut tried = Tried::default();
    for seed in 0..2_000 {
        let random = &mut Random::new(seed + 64_000);
        let image = any(random);
        let machine_id = match image.len() < 56 || once_in(random, 4) {
            true => random.array(),
            false => id(&image, header::MACHINE_ID),
        };
        tried.batch(&image, machine_id, &buffer(random));
    }
    tried.print("images of every kind");
    assert!(tried.0[15] > 20 && tried.0[22] > 20);
}

/// Where the entry stands that is bad by 16, by 17 and by 18: in the first, the second or in none.
type Bad = [Option<usize>; 3];

/// Two entries with these faults, on a file that takes others.
fn with_faults(whole: &[u8], bad: Bad) -> (Vec<u8>, Vec<Asked>) {
    let entry = |n: u64| Asked {
        machine_id: MACHINE,
        boot_id: [5; 16],
        seqnum: n,
        realtime: n,
        monotonic: n,
        fields: fields(&["A=1", "A=2", "B=3"]),
    };
    let mut asked = vec![entry(5), entry(6)];
    let mut image = whole.to_vec();
    if let Some(index) = bad[2] {
        let files = files(whole, &asked);
        let end = end_of(&files[index], &asked[index]) - 8;
        image = with_arena_to(whole, end);
    }
    if let Some(index) = bad[0] {
        asked[index].fields.pop();
    }
    if let Some(index) = bad[1] {
        asked[index].seqnum = 4;
    }
    (image, asked)
}

/// Every set of 13, 14, 15, 22, the three of an entry at either index, and 19: the first of the image, or 22,
/// or the first bad entry's lowest, or 19.
#[test]
fn every_set_of_numbers() {
    let mut tried = Tried::default();
    for (layout, header_size) in [
        (Layout::Regular, 256),
        (Layout::Regular, 272),
        (Layout::Compact, 256),
        (Layout::Compact, 272),
    ] {
        let whole = full_in(layout, header_size, &[4], header_size == 272, 4_000);
        for bad in 0..27 {
            let at = |n: usize| [None, Some(0), Some(1)][n % 3];
            let bad: Bad = [at(bad), at(bad / 3), at(bad / 9)];
            let (image, asked) = with_faults(&whole, bad);
            for chosen in 0u32..32 {
                let has = |n: u32| chosen >> n & 1 == 1;
                let (mut image, mut machine_id) = (image.clone(), MACHINE);
                let mut entries = packed(&asked);
                if has(0) {
                    image[header::STATE as usize] = 1;
                }
                if has(1) {
                    set(&mut image, header::N_DATA, 9);
                }
                if has(2) {
                    machine_id[15] ^= 0x80;
                }
                if has(3) {
                    entries.pop();
                }
                let of_image = (0..4)
                    .find(|&n| has(n))
                    .map(|n| [13, 14, 15, 22][n as usize]);
                let of = |index: usize| {
                    let numbers = (16..).zip(bad);
                    let mut its = numbers.filter(|(_, at)| *at == Some(index));
                    its.next().map(|(number, _)| (number, index as u64))
                };
                let first = match of_image {
                    Some(number) => (number, 0),
                    None => of(0).or(of(1)).unwrap_or(match has(4) {
                        true => (19, 0),
                        false => (0, 0),
                    }),
                };
                let batch = Batch::new(&image, machine_id, &entries);
                let length = if has(4) { 16 * 40 } else { 16 * 500 };
                let (answer, _) = tried.with_list(&batch, length);
                assert_eq!(
                    (answer.refusal, answer.index),
                    first,
                    "{bad:?}, {chosen:05b}"
                );
            }
        }
    }
    tried.print("every set of numbers");
    assert!([0, 13, 14, 15, 22, 16, 17, 18, 19]
        .iter()
        .all(|&it| tried.0[it] > 3));
}
