//! Every clause of 1 to 19 and 25, alone and combined: the first in the order of tests is the answer,
//! and nothing is written.
use std::collections::BTreeMap;

use checks::against::plan::Append;
use checks::generator::appends::{combined, targeted, Case};
use checks::generator::requests::{fitting, mutate};
use checks::generator::worked::request;
use checks::generator::{good, mutation};
use checks::random::Random;
use reading::refusal::clause::LIST_SHORT;
use reading::refusal::{Clause, APPEND_CLAUSES, CLAUSES};
use reading::request::{packed, Request};

use crate::made::Tried;

type Table = BTreeMap<Clause, u64>;

/// Tries a case with its list, which may be too short; the clauses that the reading found.
fn found(tried: &mut Tried, case: &Case) -> Vec<Clause> {
    let append = Append::new(&case.image, case.asked.request());
    let (number, _) = tried.with_list(&append, case.list);
    match append.read {
        Err(found) => found,
        Ok(_) if number == 19 => vec![LIST_SHORT],
        Ok(_) => Vec::new(),
    }
}

fn print(all: &[Clause], alone: &Table, together: &Table) {
    println!("{:>3} {:>6} {:>10}", "no.", "alone", "combined");
    for clause in all {
        let of = |table: &Table| table.get(clause).copied().unwrap_or(0);
        let (alone, together) = (of(alone), of(together));
        println!(
            "{:>3} {alone:>6} {together:>10}  {}",
            clause.number, clause.name
        );
        assert!(alone > 0, "{clause:?}");
        // Nothing is tested after 19.
        assert!(together > 0 || *clause == LIST_SHORT, "{clause:?}");
    }
}

#[test]
fn every_clause_of_an_append() {
    let mut tried = Tried::default();
    let (mut alone, mut together) = (Table::new(), Table::new());
    for (number, &clause) in APPEND_CLAUSES.iter().enumerate() {
        for seed in 0..60 {
            let random = &mut Random::new(seed + 1_000 * number as u64);
            let clauses = found(&mut tried, &targeted(clause, random));
            let table = match clauses.len() {
                1 => &mut alone,
                _ => &mut together,
            };
            for clause in clauses {
                *table.entry(clause).or_insert(0) += 1;
            }
            if clause != LIST_SHORT {
                for clause in found(&mut tried, &combined(clause, random)) {
                    *together.entry(clause).or_insert(0) += 1;
                }
            }
        }
    }
    print(APPEND_CLAUSES, &alone, &together);
    tried.print("targeted mutations for an append");
}

/// Refusals of the image come first, whatever is asked.
#[test]
fn every_clause_of_1_to_11() {
    let mut tried = Tried::default();
    for (number, &clause) in CLAUSES.iter().enumerate() {
        let rounds = if clause.number == 2 { 2 } else { 12 };
        let mut reached = 0;
        for seed in 0..rounds {
            let random = &mut Random::new(seed + 1_000 * number as u64);
            let damaged = [
                mutation::targeted(clause, random),
                mutation::combined(clause, random),
            ];
            for image in damaged {
                // A request for another image, which may be a bad one.
                let other = good::tidy(random).image;
                let mut asked = fitting(random, &other);
                if seed % 2 == 0 {
                    mutate(random, &mut asked);
                }
                let case = Case {
                    image,
                    asked,
                    list: random.below(100),
                };
                let clauses = found(&mut tried, &case);
                reached += u64::from(clauses.contains(&clause));
            }
        }
        assert!(reached > 0, "{clause:?}");
    }
    tried.print("targeted mutations for 1 to 11");
    assert!(tried.0[1..=11].iter().all(|&n| n > 0));
}

#[test]
fn no_journals() {
    let mut tried = Tried::default();
    let fields = packed(&[b"A=1"]);
    for length in (0..300).chain([4096]) {
        let number = if length < 256 { 1 } else { 3 };
        let ask = request(&fields, 1, 0, 0);
        assert_eq!(tried.append(&vec![0; length], ask), number);
        // Nothing at all may be asked.
        let nothing = Request {
            machine_id: [0; 16],
            ..request(&[], 0, 0, 0)
        };
        assert_eq!(tried.append(&vec![0; length], nothing), number);
    }
}
