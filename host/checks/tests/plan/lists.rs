//! Sync points of lists that no append wrote: of several entries, as batches have them, and of
//! anything else.
use std::collections::BTreeSet;

use checks::against::plan::Append;
use checks::generator::dice::{between, once_in, pick, shuffle};
use checks::generator::{appends, grown, requests};
use checks::random::Random;
use reading::layout::header::{BOOT_ID, N_ENTRIES, STATE};
use wrapper::{between_syncs, carry_out};

use crate::rule::{compare, groups, points, COUNTERS};

/// The list of an append, if it is taken; the rule has the points that the reading has.
fn put(append: &Append, tried: u64) -> Option<Vec<u8>> {
    let put = append.put(16 * append.need()?, tried);
    let (_, list) = put.unwrap_or_else(|difference| panic!("{difference}"));
    assert_eq!(points(&groups(&list)), append.points);
    Some(list)
}

/// The list of an append of any kind that is taken.
fn planned(random: &mut Random) -> Vec<u8> {
    loop {
        let case = appends::good(random);
        let append = Append::new(&case.image, case.asked.request());
        if let Some(list) = put(&append, random.word() >> 8) {
            return list;
        }
    }
}

/// Appends one after another to a file, in one list: group 1 once, groups 2 to 7 of each, group 8 once.
/// The points are those of each; and part by part the list leaves the file that the appends leave.
#[test]
fn of_several_entries() {
    let seen = &mut BTreeSet::new();
    let mut most = 0;
    for seed in 0..60 {
        let random = &mut Random::new(seed + 25_000);
        let mut image = grown::grown(random, 3);
        let mut after = image.clone();
        let (mut all, mut last, mut expected) = (Vec::new(), Vec::new(), Vec::new());
        for _ in 0..random.below(9) + 1 {
            let asked = requests::fitting(random, &after);
            let append = Append::new(&after, asked.request());
            let Some(list) = put(&append, seed) else {
                continue;
            };
            let (online, rest) = list.split_at(16);
            let (rest, offline) = rest.split_at(rest.len() - 16);
            if all.is_empty() {
                all = online.to_vec();
            }
            let before = all.len() / 16 - 1;
            let (_, points) = append.points.split_last().expect("one for group 8");
            expected.extend(points.iter().map(|point| before + point));
            all.extend(rest);
            last = offline.to_vec();
            let count = list.len() as u64 / 16;
            assert_eq!(carry_out(&mut after, &list, count), Ok(()));
        }
        if !all.is_empty() {
            all.extend(last);
            expected.push(all.len() / 16);
        }
        assert_eq!(points(&groups(&all)), expected);
        compare(&all, seed, seen);
        most = most.max(expected.len());
        for part in between_syncs(&all) {
            assert_eq!(carry_out(&mut image, part, part.len() as u64 / 16), Ok(()));
        }
        assert!(image == after);
    }
    println!("of several entries: up to {most} points");
    assert!(most > 30 && seen.contains(&(7, 2)));
}

/// Lists of appends cut at every byte.
#[test]
fn cut_lists() {
    let seen = &mut BTreeSet::new();
    let mut tried = 0;
    for seed in 0..20 {
        let list = planned(&mut Random::new(seed + 26_000));
        for length in 0..=list.len() {
            tried += 1;
            compare(&list[..length], tried, seen);
        }
    }
    println!("cut lists: {tried}");
}

/// An offset or a value that the rule may ask for, or one beside it, also with more bits than it needs.
fn word(random: &mut Random, first: u64) -> u64 {
    let counter = pick(random, &COUNTERS);
    let at = pick(random, &[counter, BOOT_ID, N_ENTRIES, STATE, first, 0]);
    match random.below(12) {
        0 => at.wrapping_add(pick(random, &[1, 8, u64::MAX, u64::MAX - 7])),
        1 => at | 1 << pick(random, &[31, 32, 63]),
        2 => random.word(),
        3 => u64::MAX,
        _ => at,
    }
}

/// Stores whose words the rule asks for, in any order; few of them would be a list of an append.
fn any_stores(random: &mut Random) -> Vec<u8> {
    let edge = 1 << pick(random, &[0, 9, 31, 32, 63]);
    let usual = 8 * between(random, 40, 1_000);
    let first = pick(random, &[edge, usual, 0, u64::MAX]);
    let count = random.below(60);
    let mut words: Vec<u64> = (0..2 * count).map(|_| word(random, first)).collect();
    if count > 1 && !once_in(random, 4) {
        words[2] = first;
    }
    words.into_iter().flat_map(u64::to_le_bytes).collect()
}

/// The list of an append with something wrong in it.
fn damaged(random: &mut Random) -> Vec<u8> {
    let list = planned(random);
    let mut stores: Vec<&[u8]> = list.chunks(16).collect();
    let (n, m) = (random.below(stores.len()), random.below(stores.len()));
    match random.below(7) {
        0 => drop(stores.remove(n)),
        1 => stores.insert(n, stores[m]),
        2 => stores.swap(n, m),
        3 => shuffle(random, &mut stores),
        4 => stores.reverse(),
        5 => stores.rotate_left(n),
        _ => stores.extend_from_within(n..),
    }
    let mut list = stores.concat();
    if once_in(random, 2) {
        let first = u64::from_le_bytes(list[16..24].try_into().expect("8 bytes"));
        let at = 8 * random.below(list.len() / 8);
        list[at..at + 8].copy_from_slice(&word(random, first).to_le_bytes());
    }
    list
}

#[test]
fn lists_of_every_kind() {
    let seen = &mut BTreeSet::new();
    for seed in 0..60_000 {
        let random = &mut Random::new(seed + 27_000_000);
        let mut list = match seed % 20 {
            0 => damaged(random),
            1 => {
                let length = random.below(300);
                random.bytes(length)
            }
            _ => any_stores(random),
        };
        // A rest below a store is none.
        let rest = random.below(16);
        list.extend(random.bytes(rest));
        compare(&list, seed, seen);
    }
    println!("which group after which: {seen:?}");
    // All there are: on in the same group but in 1 and 7, and 1 2 3 4 5 6 7 8, 3 5, 3 6, 4 6, 7 2.
    assert_eq!(seen.len(), 6 + 7 + 4);
}
