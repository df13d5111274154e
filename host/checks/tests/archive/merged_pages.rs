//! The archive's pages of a stream against the independent reading.
use super::merged_paging::Tried;
use checks::against::merged;
use checks::corpus;
use checks::generator::full::full;
use checks::generator::mutation::targeted;
use checks::generator::pairs::pair;
use checks::generator::worked::two_appends;
use checks::random::Random;
use reading::layout::{header, MOST_BYTES};
use reading::merged_answers::Opened;
use reading::refusal::{refusal, CLAUSES};

#[test]
fn pairs_of_files() {
    let mut tried = Tried::default();
    for seed in 0..36 {
        let [first, second] = pair(&mut Random::new(seed + 75_000));
        tried.pair(&first, &second);
    }
    tried.print("pairs of files");
    assert!(tried.none > 500 && tried.some > 500 && tried.all > 500);
}

/// The number and the file alone, and the page as it was.
#[test]
fn refused() {
    let mut tried = Tried::default();
    let good = two_appends(1);
    for &clause in CLAUSES
        .iter()
        .filter(|clause| clause.number != 2)
        .step_by(3)
    {
        let bad = targeted(clause, &mut Random::new(clause.number + 75_000));
        if refusal(&bad) == 0 {
            continue;
        }
        for images in [[&bad[..], &good[..]], [&good, &bad], [&bad, &bad]] {
            let opened = Opened::new(images[0], images[1]);
            for (at, length) in [([0, 0], 400), ([0, 1], 0), ([u64::MAX, 3], 96)] {
                tried.call(images, &opened, at, length);
            }
        }
    }
    tried.print("refused");
    assert!(tried.none > 100 && tried.some + tried.all == 0);
}

#[test]
fn corpus_files() {
    let mut tried = Tried::default();
    let names = [
        "bullseye-k0-c0-system",
        "bullseye-k1-c0-online",
        "sealed-bullseye-c0-system",
    ];
    for one in names {
        for other in names {
            let (first, second) = (corpus::image(one), corpus::image(other));
            let opened = Opened::new(&first, &second);
            for (at, length) in [
                ([0, 0], 1 << 17),
                ([0, 0], 3_000),
                ([2, 1], 900),
                ([9, 0], 1_200),
            ] {
                tried.call([&first, &second], &opened, at, length);
            }
            tried.one_after_another([&first, &second], &opened);
        }
    }
    tried.print("corpus");
    assert!(tried.some > 10 && tried.all > 5);
}

/// Two images of the greatest length in one page as long as both. All stamps but the seqnum id of
/// the second are the first's, so that they take turns.
#[test]
fn images_of_the_greatest_length() {
    let objects = full(&[30_000], true, 0).len() as u64;
    let first = full(&[30_000], true, MOST_BYTES - objects);
    assert_eq!(first.len() as u64, MOST_BYTES);
    let mut second = first.clone();
    second[header::SEQNUM_ID as usize] ^= 1;
    let (images, mut tried) = ([&first[..], &second[..]], Tried::default());
    let opened = Opened::new(&first, &second);
    tried.call(images, &opened, [0, 0], 2 * MOST_BYTES as usize);
    tried.call(images, &opened, [29_000, 29_990], 80 * 1_000 - 1);
    tried.call(images, &opened, [29_990, 30_000], 80 * 10);
    // Each entry of the first file, and then the second's that is equal to it but for that id.
    let mut page = vec![0; 80 * 60_000];
    let answer = merged::page(&first, &second, [0, 0], &mut page);
    assert_eq!((answer.count, answer.next), (60_000, 0));
    let files = page.chunks(80).map(|record| record[0]);
    assert!(files.eq([1, 2].into_iter().cycle().take(60_000)));
}
