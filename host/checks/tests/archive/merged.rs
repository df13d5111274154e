//! The archive's steps of a stream, from every pair of places, against the independent reading.
use super::merging::Tried;
use checks::corpus::{self, FILES};
use checks::generator::any::{any, cut};
use checks::generator::collide::of_one_hash;
use checks::generator::good::good;
use checks::generator::grown::grown;
use checks::generator::logged::logged;
use checks::generator::mutation::targeted;
use checks::generator::pairs::{drafted, twins, Pair};
use checks::generator::worked::{appended, made, request, two_appends};
use checks::random::Random;
use reading::layout::MOST_BYTES;
use reading::merged_answers::Opened;
use reading::refusal::{refusal, CLAUSES};
use reading::request::packed;
use wrapper::{raw, Which};

#[test]
fn pairs_of_files() {
    let mut tried = Tried::default();
    let kinds: [(u64, fn(&mut Random) -> Pair); 3] = [(80, logged), (24, drafted), (24, twins)];
    for (count, kind) in kinds {
        for seed in 0..count {
            let [first, second] = kind(&mut Random::new(seed + 70_000));
            tried.pair(&first, &second);
        }
    }
    tried.print("pairs of files");
    tried.covers();
    assert_eq!(tried.refused, 0);
}

/// Files that have nothing to do with one another, one that is cut in an append, one twice, and
/// files without an entry.
#[test]
fn other_pairs() {
    let mut tried = Tried::default();
    for seed in 0..6 {
        let random = &mut Random::new(seed + 71_000);
        let (one, other) = (good(random).image, grown(random, 6));
        tried.pair(&one, &other);
        tried.pair(&cut(random), &one);
        tried.pair(&one, &one);
        tried.pair(&other, &other);
        // The very same bytes lent twice.
        tried.step([&one, &one], &Opened::new(&one, &one), [0, 0]);
    }
    assert!(tried.met > 20);
    let (empty, two) = (made(4_096, 0), two_appends(1));
    for (first, second) in [
        (&empty, &empty),
        (&empty, &two),
        (&two, &empty),
        (&two, &two),
    ] {
        tried.pair(first, second);
    }
    tried.print("other pairs");
    assert_eq!(tried.refused, 0);
}

/// The number is the first file's, else the second's; 1 to 11 of both in every combination, so also
/// where the second's is lower.
#[test]
fn refused() {
    let mut tried = Tried::default();
    let good = two_appends(1);
    let mut bad: Vec<(u64, Vec<u8>)> = Vec::new();
    for &clause in CLAUSES {
        let image = targeted(clause, &mut Random::new(clause.number + 72_000));
        let number = refusal(&image);
        if number > 2 && bad.iter().all(|&(other, _)| other != number) {
            bad.push((number, image));
        }
    }
    bad.push((1, vec![0; 255]));
    bad.push((1, Vec::new()));
    assert_eq!(bad.len(), 9 + 2);
    let whose = |first: &[u8], second: &[u8]| {
        let answer = raw::merged(first, second, 0, 0);
        (answer.refusal, answer.file)
    };
    for (number, image) in &bad {
        tried.pair(image, &good);
        tried.pair(&good, image);
        assert_eq!(whose(image, &good), (*number, 1));
        assert_eq!(whose(&good, image), (*number, 2));
        for (_, other) in &bad {
            tried.step([image, other], &Opened::new(image, other), [0, 1]);
            assert_eq!(whose(image, other), (*number, 1));
        }
    }
    let long = vec![0; MOST_BYTES as usize + 1];
    assert_eq!(whose(&long, &good), (2, 1));
    assert_eq!(whose(&good, &long), (2, 2));
    assert_eq!(whose(&long, &bad[0].1), (2, 1));
    assert_eq!(whose(&bad[0].1, &long), (bad[0].0, 1));
    for seed in 0..8 {
        let random = &mut Random::new(seed + 72_000);
        let (one, other) = (any(random), any(random));
        tried.step([&one, &other], &Opened::new(&one, &other), [0, 0]);
    }
    tried.print("refused");
    assert_eq!(tried.refused, 22);
}

/// Two payloads of one hash: their entries are equal, and the one of the first file is shown.
#[test]
fn equal_but_for_the_payload() {
    let payloads = of_one_hash();
    let [first, second] = payloads.each_ref().map(|payload| {
        let mut image = made(4_096, 1);
        appended(&mut image, &request(&packed(&[payload]), 1, 1, 1));
        image
    });
    let mut tried = Tried::default();
    for (first, second, payload) in [(&first, &second, 0), (&second, &first, 1)] {
        tried.pair(first, second);
        let shown = wrapper::merged_item(first, second, 0, 0, 0);
        assert_eq!(shown, Some((Which::First, &payloads[payload][..])));
    }
    assert_eq!(tried.met, 2);
}

/// Files of journald: two of them have the same entries, and others the same boot.
#[test]
fn corpus_files() {
    let mut tried = Tried::default();
    for (one, number) in FILES {
        for (other, other_number) in FILES {
            let (first, second) = (corpus::image(one), corpus::image(other));
            let opened = Opened::new(&first, &second);
            if number != 0 || other_number != 0 {
                tried.step([&first, &second], &opened, [0, 0]);
                continue;
            }
            for at in [
                [0, 0],
                [1, 0],
                [0, 2],
                [2, 9],
                [36, 37],
                [u64::MAX, 1],
                [40, 40],
            ] {
                tried.step([&first, &second], &opened, at);
            }
        }
    }
    tried.print("corpus");
    assert!(tried.met > 0 && tried.by[0] > 0 && tried.by[1] > 0);
}
