//! 16, 17 and 18 of the first bad entry, at every index: judged on the file left by those before it, and
//! whatever those after it are.
use std::collections::BTreeMap;

use checks::generator::batches::{bad_at, Case};
use checks::generator::requests::Asked;
use checks::random::Random;
use reading::batch::{packed, Answer};
use reading::refusal::clause::*;
use reading::request::Request;

use crate::made::{fields, made, refused, Tried, MACHINE, WRITTEN};

/// Every clause at every index of up to five entries.
#[test]
fn every_clause_at_every_index() {
    let mut tried = Tried::default();
    let mut met = BTreeMap::new();
    let all = APPEND_CLAUSES.iter().copied();
    for (n, clause) in all.filter(|it| (16..=18).contains(&it.number)).enumerate() {
        for index in 0..5 {
            for seed in 0..14 {
                let random = &mut Random::new(seed + 100 * index as u64 + 10_000 * n as u64);
                let count = index + 1 + random.below(6 - index);
                let Some(case) = bad_at(random, clause, index, count) else {
                    continue;
                };
                let answer = tried.case(&case);
                assert_eq!(answer, refused(clause.number, index as u64), "{clause:?}");
                *met.entry((clause, index)).or_insert(0) += 1;
            }
        }
    }
    tried.print("every clause at every index");
    println!("{met:?}");
    assert_eq!(met.len(), 13 * 5, "some clause was not met at some index");
}

/// Entries of one payload, with the numbers from 1 on.
fn entries(count: u64) -> Vec<Asked> {
    let entry = |n: u64| Asked {
        machine_id: MACHINE,
        boot_id: [5; 16],
        seqnum: n,
        realtime: n,
        monotonic: n,
        fields: fields(&["A=1"]),
    };
    (1..=count).map(entry).collect()
}

/// At every index of 32 entries.
#[test]
fn of_32_entries() {
    let mut tried = Tried::default();
    for kind in WRITTEN {
        let image = made(kind, 16_384, 2);
        for index in 0..32 {
            let spoil = |asked: &mut Asked, number: u64| match number {
                16 => asked.fields.clear(),
                17 => asked.seqnum = index as u64,
                _ => asked.monotonic = (index as u64).saturating_sub(1),
            };
            for number in [16, 17, 0] {
                let mut asked = entries(32);
                spoil(&mut asked[index], number);
                // Monotonic time 0 does not fall for a first entry.
                let expected = match (number, index) {
                    (0, 0) => 0,
                    (0, _) => 17,
                    _ => number,
                };
                let case = Case {
                    image: image.clone(),
                    machine_id: MACHINE,
                    asked,
                };
                let Answer {
                    refusal, index: at, ..
                } = tried.case(&case);
                let index = if expected == 0 { 0 } else { index as u64 };
                assert_eq!((refusal, at), (expected, index));
            }
        }
    }
    tried.print("at every index of 32 entries");
}

/// Every length of the file that some of the entries fit: the first one that does not is named.
#[test]
fn full_at_every_index() {
    let mut tried = Tried::default();
    for kind in WRITTEN {
        let asked = entries(12);
        let requests: Vec<Request> = asked.iter().map(Asked::request).collect();
        let entries = packed(&requests);
        let mut last = None;
        let mut met = Vec::new();
        for room in (64..3_000).step_by(8) {
            let image = made(kind, kind.1 as usize + room, 1);
            let answer = tried.batch(&image, MACHINE, &entries);
            if answer.refusal == 0 {
                last = Some(room);
                break;
            }
            assert_eq!(answer.refusal, 18);
            if met.last() != Some(&answer.index) {
                met.push(answer.index);
            }
        }
        assert!(last.is_some() && met.into_iter().eq(0..12));
    }
    tried.print("full at every index");
}

/// 17 against the entry before it in the batch, and not against the last one of the file.
#[test]
fn after_the_one_before() {
    let mut tried = Tried::default();
    let image = made(WRITTEN[2], 8_192, 2);
    let fields = fields(&["A=1", "B=2"]);
    let entry = |seqnum: u64, monotonic: u64, boot: u8| Request {
        machine_id: MACHINE,
        boot_id: [boot; 16],
        seqnum,
        realtime: 9,
        monotonic,
        fields: &fields,
    };
    let top = 1 << 63;
    for (asked, expected) in [
        ([entry(1, 5, 1), entry(2, 5, 1), entry(3, 5, 1)], (0, 0)),
        ([entry(1, 5, 1), entry(1, 5, 1), entry(3, 5, 1)], (17, 1)),
        ([entry(5, 5, 1), entry(9, 5, 1), entry(7, 5, 1)], (17, 2)),
        (
            [entry(top - 1, 5, 1), entry(top, 5, 1), entry(top + 1, 5, 1)],
            (0, 0),
        ),
        (
            [
                entry(u64::MAX - 1, 5, 1),
                entry(u64::MAX, 5, 1),
                entry(1, 5, 1),
            ],
            (17, 2),
        ),
        ([entry(0, 5, 1), entry(1, 5, 1), entry(2, 5, 1)], (17, 0)),
        // Another boot has a monotonic time of its own.
        ([entry(1, 5, 1), entry(2, 4, 2), entry(3, 3, 1)], (0, 0)),
        ([entry(1, 5, 1), entry(2, 4, 1), entry(3, 3, 1)], (17, 1)),
        ([entry(1, 5, 1), entry(2, 9, 2), entry(3, 8, 2)], (17, 2)),
    ] {
        let answer = tried.batch(&image, MACHINE, &packed(&asked));
        assert_eq!((answer.refusal, answer.index), expected, "{asked:?}");
    }
}
