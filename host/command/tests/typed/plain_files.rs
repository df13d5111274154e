//! `--plain` on files of every kind: all that is printed of them is the same, or 14 refuses them.
use crate::cut::course;
use crate::person::{asked, bytes, file, folder};
use crate::plain::{both, only_14, plainly, COMMANDS};
use crate::plain_asked::everything;
use checks::corpus::{self, FILES};
use checks::generator::ahead::ahead;
use checks::generator::any::cut;
use checks::generator::full::full;
use checks::generator::good::{good, tidy};
use checks::generator::grown::grown;
use checks::generator::mutation::targeted;
use checks::generator::render::render;
use checks::generator::set_clock::{series, PLAIN};
use checks::generator::unheld::unheld;
use checks::generator::worked::two_appends;
use checks::random::Random;
use reading::layout::{Layout, HEADER_SIZES};
use reading::plain::refusal;
use reading::refusal::CLAUSES;
use std::path::Path;

/// How many answers were printed by both, failed alike, and were refused by 14 alone.
#[derive(Debug, Default)]
struct Compared {
    printed: u64,
    failed: u64,
    only_14: u64,
}

impl Compared {
    fn file(&mut self, path: &Path) {
        let before = bytes(path);
        let number = refusal(&before);
        for words in everything(&before) {
            let [without, with] = both(&words[0], path, &words[1..]);
            let count = match (number, without.status) {
                (14, _) => {
                    only_14(with, path);
                    &mut self.only_14
                }
                (_, status) => {
                    assert_eq!(with, without, "{words:?}");
                    match status {
                        Some(0) => &mut self.printed,
                        _ => &mut self.failed,
                    }
                }
            };
            *count += 1;
        }
        assert!(bytes(path) == before);
    }
}

/// The worked example, files of journald, those whose clock was set, each header in each layout, foreign
/// objects, DATA that no entry holds, arrays that are chained ahead.
#[test]
fn files_that_pass() {
    let folder = folder("plain-files");
    let mut compared = Compared::default();
    for (name, _) in FILES {
        compared.file(&corpus::path(name));
    }
    let mut images = vec![two_appends(0), two_appends(1)];
    images.extend(
        series()
            .iter()
            .step_by(3)
            .map(|(_, times)| PLAIN.file(times)),
    );
    for layout in Layout::BOTH {
        for header_size in HEADER_SIZES {
            let drafts = [
                unheld(layout, header_size, true, true),
                ahead(layout, header_size, false, 5),
            ];
            images.extend(drafts.map(|it| render(&it, &mut Random::new(1)).image));
        }
    }
    for seed in 0..8 {
        let random = &mut Random::new(seed + 90_000);
        images.extend([tidy(random).image, grown(random, 6)]);
    }
    for image in images {
        compared.file(&file(&folder, "one.journal", &image));
    }
    println!("files that pass: {compared:?}");
    assert_eq!(compared.only_14, 0);
    assert!(compared.printed > 500 && compared.failed > 200);
}

/// Good files of every kind and those that were cut in the middle of an append, which may be 14; and a
/// damage for each clause of 1 to 11, which both refuse in the same words.
#[test]
fn other_files() {
    let folder = folder("plain-others");
    let mut compared = Compared::default();
    for seed in 0..12 {
        let random = &mut Random::new(seed + 91_000);
        for image in [good(random).image, cut(random)] {
            compared.file(&file(&folder, "other.journal", &image));
        }
    }
    println!("other files: {compared:?}");
    assert!(compared.printed > 50 && compared.failed > 50 && compared.only_14 > 100);
    let mut refused = 0;
    for &clause in CLAUSES {
        let image = targeted(clause, &mut Random::new(clause.number));
        let path = file(&folder, "damaged.journal", &image);
        if reading::refusal::refusal(&image) == 0 {
            continue;
        }
        for (name, words) in [
            ("list", &[][..]),
            ("find", &["--seqnum", "1"]),
            ("find", &["--time", "1"]),
            ("find", &["--field", "A=1"]),
            ("values", &["A"]),
        ] {
            let [without, with] = both(name, &path, words);
            assert_eq!(without.status, Some(3), "{clause:?}");
            assert_eq!(with, without, "{clause:?}");
        }
        refused += 1;
    }
    assert!(refused > 60, "{refused}");
}

/// Ended at each of its syncs, an append leaves a file that is 14 from the third on, until the entry is
/// committed.
#[test]
fn an_append_that_was_cut() {
    let folder = folder("plain-cut");
    let (before, cuts) = course(&folder);
    for (image, n) in [before].iter().chain(&cuts).zip(0..) {
        let path = file(&folder, "cut.journal", image);
        let listed = asked("list", &path).done();
        match n {
            2..=4 => {
                for (name, words) in COMMANDS.iter().zip([&[][..], &["--seqnum", "1"], &["A"]]) {
                    only_14(plainly(name, &path, words), &path);
                }
            }
            _ => assert_eq!(plainly::<&str>("list", &path, &[]).done(), listed, "{n}"),
        }
        assert!(bytes(&path) == *image);
    }
}

/// One answer of a file of 20,000 entries takes no longer than a person waits.
#[test]
fn a_long_file() {
    let image = full(&[20_000], true, 6_400_000);
    let path = file(&folder("plain-long"), "long.journal", &image);
    for (name, words) in [
        ("find", &["--seqnum", "20000"][..]),
        ("find", &["--time", "10000", "-o", "json"]),
        ("find", &["--seqnum", "20001"]),
        ("values", &["A"]),
        ("values", &["B"]),
    ] {
        let [without, with] = both(name, &path, words);
        assert_eq!(with, without, "{words:?}");
    }
}
