//! Many faults in one file: words that a number judges set anew all over it, chains that run into one
//! another, lists of several FIELDs in one.
use super::asking::Tried;
use checks::generator::mutation::{crowded, scattered};
use checks::random::Random;

fn tried_on(number: u64, rounds: u64) -> Tried {
    let mut tried = Tried::default();
    for seed in 0..rounds {
        let random = &mut Random::new(seed + 100_000 * number + 310_000);
        tried.image(&scattered(number, random));
        tried.image(&crowded(number, random));
    }
    tried.print(&format!("many faults of {number}"));
    assert!(tried.answers[number as usize] > rounds);
    tried
}

#[test]
fn of_6() {
    tried_on(6, 3_000);
}

#[test]
fn of_8() {
    tried_on(8, 3_000).covers(&[8], 0);
}

#[test]
fn of_9() {
    tried_on(9, 3_000).covers(&[9], 0);
}

#[test]
fn of_10() {
    tried_on(10, 3_000).covers(&[10], 0);
}

#[test]
fn of_11() {
    let tried = tried_on(11, 6_000);
    tried.covers(&[11], 0);
    tried.in_any_order(&[11]);
}
