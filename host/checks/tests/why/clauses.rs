//! Every clause of 1 to 11: alone, with others of its number and of higher ones, before them in the file
//! and behind them.
use super::asking::Tried;
use checks::generator::mutation::{combined, crowded, targeted};
use checks::random::Random;
use reading::refusal::CLAUSES;

#[test]
fn every_clause() {
    let mut tried = Tried::default();
    for (number, &clause) in CLAUSES.iter().enumerate() {
        let rounds = match clause.number {
            2 => 1,
            8.. => 120,
            _ => 40,
        };
        for seed in 0..rounds {
            let random = &mut Random::new(seed + 1_000 * number as u64 + 300_000);
            tried.image(&targeted(clause, random));
            tried.image(&combined(clause, random));
            let times = match clause.number {
                6 => 4,
                8.. => 1,
                _ => 0,
            };
            for _ in 0..times {
                tried.image(&crowded(clause.number, random));
            }
        }
    }
    tried.print("every clause");
    tried.covers(&Vec::from_iter(1..=11), 1);
    tried.in_any_order(&[8, 9, 11]);
}
