//! The whole stream of two files, by the archive's steps from 0 and 0.
use checks::against::merged::step;
use checks::corpus;
use checks::generator::any::larger;
use checks::generator::pairs::{pair, Pair};
use checks::random::Random;
use reading::merged::{facts, Facts};
use reading::merged_answers::{Merged, Opened};

/// The places of the entries that are shown: in the first file, in the second, in both where two
/// meet.
fn stream(first: &[u8], second: &[u8]) -> Vec<(Option<u64>, Option<u64>)> {
    let mut at = Merged::default();
    let mut all = Vec::new();
    loop {
        let next = step(first, second, [at.next_first, at.next_second]);
        if next == Merged::default() {
            return all;
        }
        let moved = |from: u64, to: u64| (from != to).then_some(from);
        all.push((
            moved(at.next_first, next.next_first),
            moved(at.next_second, next.next_second),
        ));
        at = next;
        assert!(all.len() <= first.len() / 80 + second.len() / 80, "it ends");
    }
}

/// "Each entry of both files comes once, in its file's order, but for those met pairs", which from 0
/// and 0 are all that are equal.
#[test]
fn each_entry_once() {
    let (mut met, mut alone) = (0, 0);
    let mut all: Vec<Pair> = (0..120)
        .map(|seed| pair(&mut Random::new(seed + 73_000)))
        .collect();
    for seed in 0..3 {
        let random = &mut Random::new(seed + 73_000);
        all.push([larger(random), larger(random)]);
    }
    for [first, second] in &all {
        let opened = Opened::new(first, second);
        let files = opened.0.as_ref().unwrap_or_else(|_| panic!("both open"));
        let of = |file: u64| -> Vec<Facts> {
            let journal = files.file(file);
            let entries = journal.committed.iter();
            entries.map(|&entry| facts(journal, entry)).collect()
        };
        let (one, other) = (of(1), of(2));
        let shown = stream(first, second);
        let places = |entries: &[Facts]| (0..entries.len() as u64).collect::<Vec<_>>();
        let of_first = shown.iter().filter_map(|(place, _)| *place);
        assert_eq!(of_first.collect::<Vec<_>>(), places(&one));
        let of_second = shown.iter().filter_map(|(_, place)| *place);
        assert_eq!(of_second.collect::<Vec<_>>(), places(&other));
        let both: Vec<(u64, u64)> = shown.iter().filter_map(|&(a, b)| a.zip(b)).collect();
        let mut equal = Vec::new();
        for (one, a) in one.iter().zip(0..) {
            let same = other.iter().zip(0..).filter(|(other, _)| *other == one);
            equal.extend(same.map(|(_, b)| (a, b)));
        }
        assert_eq!(both, equal);
        met += both.len();
        alone += shown.len() - both.len();
    }
    println!(
        "each entry once: {} pairs, {met} met, {alone} alone",
        all.len()
    );
    assert!(met > 50 && alone > 200);
}

/// Two files of journald, an online one and its archive, have the same entries.
#[test]
fn a_file_and_its_archive() {
    let [online, archived] =
        ["online", "system-archived"].map(|it| corpus::image(&format!("bullseye-k1-c0-{it}")));
    let shown = stream(&online, &archived);
    let all: Vec<_> = (0..37).map(|place| (Some(place), Some(place))).collect();
    assert_eq!(shown, all);
}
