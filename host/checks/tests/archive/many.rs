//! The archive's `benchmark_lookups` against the independent reading: the refusal, or the answers
//! to all arguments added up.
use super::adding::Tried;
use checks::corpus::{self, FILES};
use checks::generator::any::{any, larger};
use checks::generator::worked::two_appends;
use checks::generator::{good, grown, mutation};
use checks::random::Random;
use reading::refusal::CLAUSES;

#[test]
fn good_images() {
    let mut tried = Tried::default();
    tried.image(&two_appends(1), 1);
    for seed in 0..25 {
        let random = &mut Random::new(seed + 60_000);
        tried.image(&good::good(random).image, 2);
        tried.image(&grown::grown(random, 12), 2);
    }
    for seed in 0..4 {
        tried.image(&larger(&mut Random::new(seed + 60_000)), 4);
    }
    tried.print("good images");
    tried.covers();
    assert_eq!(tried.images[0], 55);
}

#[test]
fn damaged_images() {
    let mut tried = Tried::default();
    for (number, &clause) in CLAUSES.iter().enumerate() {
        let random = &mut Random::new(number as u64 + 60_000);
        tried.image(&mutation::targeted(clause, random), 9);
    }
    for seed in 0..40 {
        let random = &mut Random::new(seed + 60_000);
        tried.image(&mutation::untargeted(random), 9);
        tried.image(&any(random), 9);
    }
    tried.print("damaged images");
    assert!(tried.images.iter().all(|&n| n > 0));
}

#[test]
fn corpus() {
    let mut tried = Tried::default();
    for (name, number) in FILES {
        let before = tried.images[number as usize];
        tried.image(&corpus::image(name), 9);
        assert_eq!(tried.images[number as usize], before + 1, "{name}");
    }
    tried.print("corpus");
}
