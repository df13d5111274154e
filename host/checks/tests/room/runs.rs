//! Runs of appends and batches, taken and refused, each carried out in full.
use checks::random::Random;
use reading::layout::Layout;

use crate::calls::any;
use crate::file::File;
use crate::seen::Seen;
use checks::generator::written::WRITTEN;

/// Files of several lengths, up to their ends and on.
#[test]
fn files_that_fill() {
    let mut seen = Seen::default();
    let mut entries = 0;
    for (n, kind) in WRITTEN.into_iter().enumerate() {
        for (length, cells) in [(1_600, 1), (9_000, 7), (150_000, 31)] {
            let random = &mut Random::new((n + length) as u64);
            let mut file = File::new(kind, length, cells, &mut seen);
            for _ in 0..200 {
                any(random, &mut file);
            }
            entries += file.entries;
        }
    }
    println!("{entries} entries");
    seen.print("files that fill");
    let often = |answers: [u64; 26], numbers: &[usize]| {
        for &number in numbers {
            assert!(answers[number] > 40, "{number}");
        }
    };
    often(seen.appends, &[0, 15, 16, 17, 18, 19]);
    often(seen.batches, &[0, 16, 17, 18, 19, 22]);
    assert!(entries > 5_000);
}

/// Long files, regular and compact.
#[test]
fn long_files() {
    let mut seen = Seen::default();
    for (n, kind) in [(Layout::Regular, 272, true), (Layout::Compact, 256, false)]
        .into_iter()
        .enumerate()
    {
        let random = &mut Random::new(n as u64 + 81_000);
        let mut file = File::new(kind, 2 << 20, 512, &mut seen);
        while file.entries < 4_000 {
            any(random, &mut file);
        }
    }
    seen.print("long files");
    assert!(seen.appends[0] > 400 && seen.batches[0] > 200);
    assert!(*seen.global.at.last().expect("entries") >= 4_000);
    assert!(*seen.data.at.last().expect("entries") >= 2_500);
}
