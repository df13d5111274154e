//! Pairs of good files as one stream, against the independent reading.
use crate::person::{asked, bytes, file, folder, program, said};
use checks::corpus;
use checks::generator::full::full;
use checks::generator::pairs::pair;
use checks::random::Random;
use reading::layout::{entry, header};
use reading::merged::open_both;
use std::path::Path;

/// File, sequence number, wall time and fields of each entry that `list` prints.
fn listed(first: &Path, second: &Path) -> Vec<[u64; 4]> {
    let text = said(program().arg("list").args([first, second])).done();
    let row = |line: &str| {
        let words: Vec<&str> = line.split_whitespace().collect();
        // A local time is three words.
        [0, 1, 5, 6].map(|place| words[place].parse().expect("a number"))
    };
    text.lines().skip(1).map(row).collect()
}

/// The same by the reading.
fn expected(first: &[u8], second: &[u8]) -> Vec<[u64; 4]> {
    let stream = open_both(first, second).unwrap_or_else(|_| panic!("both open"));
    let row = |file: u64, offset: u64| {
        let journal = stream.file(file);
        let [seqnum, realtime] =
            [entry::SEQNUM, entry::REALTIME].map(|at| journal.image.word(offset + at));
        [file, seqnum, realtime, journal.items(offset).len() as u64]
    };
    let all = stream.all(0, 0).into_iter();
    all.map(|shown| row(shown.file, shown.entry)).collect()
}

#[test]
fn pairs() {
    let folder = folder("two-good");
    let mut entries = 0;
    for seed in 0..40 {
        let [first, second] = pair(&mut Random::new(seed + 78_000));
        let [one, two] =
            [("one", &first), ("two", &second)].map(|(name, image)| file(&folder, name, image));
        let rows = listed(&one, &two);
        assert_eq!(rows, expected(&first, &second));
        entries += rows.len();
    }
    assert!(entries > 150);
}

#[test]
fn real_files() {
    let names = [
        "bullseye-k0-c0-system",
        "bullseye-k1-c0-online",
        "sealed-bullseye-c0-system",
    ];
    for one in names {
        for other in names {
            let [one, other] = [one, other].map(corpus::path);
            assert_eq!(listed(&one, &other), expected(&bytes(&one), &bytes(&other)));
        }
    }
}

/// Two files of 20,000 entries and nearly the greatest length, whose entries take turns.
#[test]
fn long_files() {
    let folder = folder("two-long");
    let mut image = full(&[20_000], true, 6_400_000);
    let first = file(&folder, "first.journal", &image);
    image[header::SEQNUM_ID as usize] ^= 1;
    let second = file(&folder, "second.journal", &image);
    let rows = listed(&first, &second);
    assert_eq!(rows.len(), 40_000);
    let turns = rows
        .iter()
        .zip(0..)
        .all(|(row, n)| row[..2] == [n % 2 + 1, n / 2 + 1]);
    assert!(turns);
    let listed = asked("list", &first).done();
    let words = ["--field", "A=1"];
    let held = said(program().arg("find").args([&first, &second]).args(words)).done();
    assert_eq!(held.lines().count(), 2 * listed.lines().count() - 1);
}
