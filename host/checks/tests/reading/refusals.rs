//! How often each clause of the tables of refusals is reached, alone and combined.
use std::collections::BTreeMap;

use checks::generator::{appends, good, mutation};
use checks::random::Random;
use reading::plan::{append, plan};
use reading::refusal::{clauses, Clause, APPEND_CLAUSES, CLAUSES};

#[derive(Default)]
struct Table {
    meant: BTreeMap<Clause, u64>,
    alone: BTreeMap<Clause, u64>,
    together: BTreeMap<Clause, u64>,
}

impl Table {
    fn count(&mut self, meant: Option<Clause>, found: &[Clause]) {
        if let Some(clause) = meant.filter(|clause| found.contains(clause)) {
            *self.meant.entry(clause).or_default() += 1;
        }
        for &clause in found {
            let map = if found.len() == 1 {
                &mut self.alone
            } else {
                &mut self.together
            };
            *map.entry(clause).or_default() += 1;
        }
    }

    fn print(&self, all: &[Clause]) {
        println!("{:>3} {:>6} {:>6} {:>6}", "no.", "meant", "alone", "with");
        for clause in all {
            let of = |map: &BTreeMap<Clause, u64>| map.get(clause).copied().unwrap_or(0);
            let (meant, alone, together) = (of(&self.meant), of(&self.alone), of(&self.together));
            println!(
                "{:>3} {meant:>6} {alone:>6} {together:>6}  {}",
                clause.number, clause.name
            );
        }
    }
}

#[test]
fn good_images_open() {
    for seed in 0..10_000 {
        let found = clauses(&good::good(&mut Random::new(seed)).image);
        assert!(found.is_empty(), "seed {seed}: {found:?}");
    }
}

#[test]
fn tidy_images_take_an_append() {
    let mut taken = 0;
    for seed in 0..10_000 {
        let case = appends::good(&mut Random::new(seed));
        let mut list = vec![0; case.list];
        let answer = append(&case.image, &case.asked.request(), &mut list);
        let why = plan(&case.image, &case.asked.request()).err();
        // A seqnum at its end leaves no number above.
        let at_end = answer.refusal == 17 && case.asked.seqnum == u64::MAX;
        assert!(
            matches!(answer.refusal, 0 | 18) || at_end,
            "seed {seed}: {why:?}"
        );
        taken += (answer.refusal == 0) as u64;
    }
    println!("{taken} of 10000 are taken");
    assert!(taken > 5_000);
}

#[test]
fn every_clause_of_an_image_is_reached() {
    let mut table = Table::default();
    for (number, &clause) in CLAUSES.iter().enumerate() {
        let rounds = if clause.number == 2 { 3 } else { 400 };
        for seed in 0..rounds {
            let image = mutation::targeted(clause, &mut Random::new(seed + 1000 * number as u64));
            table.count(Some(clause), &clauses(&image));
        }
    }
    table.print(CLAUSES);
    for clause in CLAUSES {
        assert!(table.meant.contains_key(clause), "{clause:?}");
        // Equal offsets are the same entry, so equal seqnums come with them.
        assert!(
            table.alone.contains_key(clause) || clause.name == "offsets equal",
            "{clause:?}"
        );
    }
}

#[test]
fn every_clause_of_an_append_is_reached() {
    let mut table = Table::default();
    for (number, &clause) in APPEND_CLAUSES.iter().enumerate() {
        for seed in 0..200 {
            let case = appends::targeted(clause, &mut Random::new(seed + 1000 * number as u64));
            let mut found = plan(&case.image, &case.asked.request())
                .err()
                .unwrap_or_default();
            let answer = append(&case.image, &case.asked.request(), &mut vec![0; case.list]);
            if answer.refusal == 19 {
                found.push(*APPEND_CLAUSES.last().expect("19"));
            }
            assert_eq!(
                answer.refusal,
                found.first().map_or(0, |clause| clause.number)
            );
            table.count(Some(clause), &found);
        }
    }
    table.print(APPEND_CLAUSES);
    for clause in APPEND_CLAUSES {
        assert!(table.alone.contains_key(clause), "{clause:?}");
    }
}

#[test]
fn untargeted_mutations() {
    let mut table = Table::default();
    let mut accepted = 0;
    for seed in 0..100_000 {
        let found = clauses(&mutation::untargeted(&mut Random::new(seed)));
        accepted += found.is_empty() as u64;
        table.count(None, &found);
    }
    table.print(CLAUSES);
    println!("{accepted} of 100000 are accepted");
    assert!(accepted > 1_000);
}
