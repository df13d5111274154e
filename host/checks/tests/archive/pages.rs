//! The archive's pages against the independent reading.
use super::paging::{Asked, Tried};
use checks::corpus::{self, FILES};
use checks::generator::any::{any, cut, larger};
use checks::generator::full::full_with;
use checks::generator::{good, grown, mutation};
use checks::random::Random;
use reading::layout::{kind, MOST_BYTES};
use reading::lookup::open;
use reading::pages::{self, fill};
use reading::refusal::CLAUSES;
use wrapper::raw;

#[test]
fn good_images() {
    let mut tried = Tried::default();
    for seed in 0..25 {
        let random = &mut Random::new(seed + 40_000);
        tried.image(&good::good(random).image);
        tried.image(&good::tidy(random).image);
    }
    for seed in 0..2 {
        tried.image(&larger(&mut Random::new(seed)));
    }
    tried.print("good images");
    assert!(tried.none > 100 && tried.some > 100 && tried.all > 100);
    assert_eq!(tried.images[0], 52);
}

#[test]
fn grown_images() {
    let mut tried = Tried::default();
    for seed in 0..20 {
        tried.image(&grown::grown(&mut Random::new(seed + 40_000), 12));
        tried.image(&cut(&mut Random::new(seed + 40_000)));
    }
    tried.print("grown images");
    assert!(tried.none > 100 && tried.some > 100 && tried.all > 100);
    assert_eq!(tried.images[0], 40);
}

#[test]
fn damaged_images() {
    let mut tried = Tried::default();
    for (number, &clause) in CLAUSES.iter().enumerate() {
        let random = &mut Random::new(number as u64 + 40_000);
        tried.image(&mutation::targeted(clause, random));
    }
    for seed in 0..60 {
        tried.image(&mutation::untargeted(&mut Random::new(seed + 40_000)));
    }
    for seed in 0..20 {
        tried.image(&any(&mut Random::new(seed + 40_000)));
    }
    tried.print("damaged images");
    assert!(tried.images[1..].iter().all(|&n| n > 0));
}

/// Files of journald, whose entries have up to 30 items.
#[test]
fn corpus_files() {
    let mut tried = Tried::default();
    for (name, _) in FILES {
        let image = corpus::image(name);
        let journal = match open(&image) {
            Ok(journal) => journal,
            Err(number) => {
                tried.refused(&image, number);
                tried.images[number as usize] += 1;
                continue;
            }
        };
        tried.images[0] += 1;
        tried.lengths(&image, &Asked::Entries, &pages::entries(&journal));
        for object in journal.image.of_kind(kind::DATA).iter().step_by(12) {
            let asked = Asked::Matches(journal.image.payload(object).to_vec());
            tried.one_after_another(&image, &asked, &asked.records(&journal));
        }
        for object in journal.image.of_kind(kind::FIELD) {
            let asked = Asked::Values(journal.image.payload(&object).to_vec());
            tried.one_after_another(&image, &asked, &asked.records(&journal));
        }
    }
    tried.print("corpus");
    assert!(tried.some > 100 && tried.all > 10);
    assert_eq!(tried.images[0], 7);
}

/// A payload and a name may be lent from the image itself.
#[test]
fn lent_from_the_image() {
    let image = corpus::image("bullseye-k1-c0-online");
    let journal = open(&image).expect("it opens");
    for object in journal.image.of_kind(kind::DATA).iter().step_by(10) {
        let payload = journal.image.payload(object);
        let name = payload.split(|&byte| byte == b'=').next().expect("a name");
        let (mut one, mut other) = (vec![7; 4_096], vec![7; 4_096]);
        let answer = raw::page_matches(&image, payload, 0, &mut one);
        let expected = fill(&pages::matches(&journal, payload), 0, &mut other);
        assert_eq!((answer.count, answer.next), (expected.count, expected.next));
        assert!(one == other && answer.count > 0);
        let answer = raw::page_values(&image, name, 0, &mut one);
        let expected = fill(&pages::values(&journal, name), 0, &mut other);
        assert_eq!((answer.count, answer.next), (expected.count, expected.next));
        assert!(one == other && answer.count > 0);
    }
}

/// All entries of an image of the greatest length in one page of its length, and the end of them.
#[test]
fn an_image_of_the_greatest_length() {
    let objects = full_with(272, &[30_000], true, 0).len() as u64;
    let mut image = full_with(272, &[30_000], true, MOST_BYTES - objects);
    assert_eq!(image.len() as u64, MOST_BYTES);
    let journal = open(&image).expect("it opens");
    let records = pages::entries(&journal);
    drop(journal);
    let mut tried = Tried::default();
    for (asked, place) in [
        (Asked::Entries, 0),
        (Asked::Entries, 29_990),
        (Asked::Matches(b"A=1".to_vec()), 0),
        (Asked::Matches(b"A=1".to_vec()), 15_000),
    ] {
        for length in [image.len(), 72 * 1_000, 72 * 1_000 - 1] {
            tried.call(&image, &asked, place, length, |page| {
                fill(&records, place, page)
            });
        }
    }
    // One byte more than an image may have.
    image.resize(MOST_BYTES as usize + 1, 0);
    tried.refused(&image, 2);
}
