//! The stream of two files of the greatest length in one page: the archive against plain Rust, in
//! openings of both files, and journalctl's export of the same files.
use crate::builder::Builder;
use crate::open::{facts, payloads};
use crate::plain::merged::page_merged as plain_page;
use crate::plain::open::open as plain_open;
use crate::plain::reads;
use crate::process::{journalctl, spent};
use crate::timing::least_long;
use checks::generator::pairs::pair;
use checks::random::Random;
use reading::layout::{header, MOST_BYTES};
use std::hint::black_box;
use wrapper::raw::{self, MergedPage};

const ROUNDS: usize = 60;

type Page = fn(&[u8], &[u8], [u64; 2], &mut [u8]) -> MergedPage;

pub fn merged() {
    same_answers();
    let first = taking_turns(0, 4);
    let files = [
        ("one seqnum id", taking_turns(1, 4)),
        ("two seqnum ids", taking_turns(1, 6)),
        ("a file twice", first.clone()),
    ];
    println!(
        "{:<16} {:>10} {:>12} {:>12} {:>8} {:>14} {:>10} {:>12}",
        "two of 8 MiB",
        "records",
        "archive ms",
        "plain ms",
        "ratio",
        "open both ms",
        "openings",
        "records ms"
    );
    for (label, second) in &files {
        row(label, &first, second);
    }
    exported(&first, &files[0].1);
}

fn archive(first: &[u8], second: &[u8], at: [u64; 2], page: &mut [u8]) -> MergedPage {
    raw::page_merged(first, second, at[0], at[1], page)
}

/// The same by plain Rust, which opens both too.
fn plain(first: &[u8], second: &[u8], at: [u64; 2], page: &mut [u8]) -> MergedPage {
    for (image, file) in [(first, 1), (second, 2)] {
        let refusal = plain_open(image);
        if refusal != 0 {
            return MergedPage {
                refusal,
                file,
                ..MergedPage::default()
            };
        }
    }
    plain_page(first, second, at, page)
}

/// Only what answers the same can be compared.
fn same_answers() {
    for seed in 0..300 {
        let random = &mut Random::new(seed + 90_000);
        let [first, second] = pair(random);
        if !reads(&first) || !reads(&second) {
            continue;
        }
        let at = [random.below(4) as u64, random.below(4) as u64];
        let length = random.below(1_000);
        let (mut one, mut other) = (vec![7; length], vec![7; length]);
        let answer = archive(&first, &second, at, &mut one);
        assert_eq!(plain(&first, &second, at, &mut other), answer);
        assert!(one == other);
    }
}

/// A file of the greatest length, full of every second one of some entries, under a seqnum id.
fn taking_turns(turn: u64, seqnum_id: u8) -> Vec<u8> {
    let mut builder = Builder::new(MOST_BYTES as usize, true, 4_095, 333);
    let random = &mut Random::new(3 + turn);
    let mut n = turn;
    while builder.append(&payloads(random, n), facts(n)) {
        n += 2;
    }
    let mut image = builder.objects.image;
    image[header::SEQNUM_ID as usize..][..16].fill(seqnum_id);
    image
}

/// One page with all records. The last column is what plain Rust takes for them without opening.
fn row(label: &str, first: &[u8], second: &[u8]) {
    let length = first.len() + second.len();
    let (mut one, mut other) = (vec![0; length], vec![0; length]);
    let answer = archive(first, second, [0, 0], &mut one);
    assert_eq!(plain(first, second, [0, 0], &mut other), answer);
    assert!(one == other);
    let [archive, plain, records]: [Page; 3] = black_box([archive, plain, plain_page]);
    let paged = |call: Page, page: &mut [u8]| {
        black_box(call(black_box(first), black_box(second), [0, 0], page));
    };
    let mut third = other.clone();
    let [archive, plain, opening, records] = least_long(
        ROUNDS,
        [
            &mut || paged(archive, &mut one),
            &mut || paged(plain, &mut other),
            &mut || {
                black_box([first, second].map(|it| raw::open(black_box(it))));
            },
            &mut || paged(records, &mut third),
        ],
    );
    println!(
        "{label:<16} {:>10} {:>12.2} {:>12.2} {:>8.2} {:>14.2} {:>10.2} {:>12.2}",
        answer.count,
        archive / 1e6,
        plain / 1e6,
        plain / archive,
        opening / 1e6,
        archive / opening,
        records / 1e6
    );
}

/// `journalctl --file=A --file=B -o export`, less what starting it takes.
fn exported(first: &[u8], second: &[u8]) {
    let paths = ["first", "second"].map(|name| {
        std::env::temp_dir().join(format!("bench-{}-{name}.journal", std::process::id()))
    });
    for (path, image) in paths.iter().zip([first, second]) {
        std::fs::write(path, image).expect("a file for journalctl");
    }
    let [one, other] = paths
        .each_ref()
        .map(|it| format!("--file={}", it.display()));
    let times = spent(
        10,
        [&|| journalctl(&["--version"]), &|| {
            journalctl(&[&one, &other, "--quiet", "-o", "export"])
        }],
    );
    match times {
        [Some(start), Some(export)] => println!(
            "journalctl -o export of both {:.0} ms, less its start",
            (export - start) / 1e3
        ),
        _ => println!("journalctl is not installed, so its export of both is not measured"),
    }
    for path in paths {
        std::fs::remove_file(path).expect("the file is there");
    }
}
