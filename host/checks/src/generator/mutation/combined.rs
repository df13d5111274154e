//! Mutations for a clause combined with others for higher numbers, and with another for the same
//! number where the two can stand together.
use super::clause::mutate;
use crate::generator::dice::{between, once_in, pick};
use crate::generator::good::good;
use crate::random::Random;
use reading::refusal::clause::*;

/// A good image with a mutation meant for a clause, and mutations before it that are meant for
/// others: the lowest number is the answer. A mutation needs an image to which no lower number
/// applies, so the highest comes first.
pub fn combined(clause: Clause, random: &mut Random) -> Vec<u8> {
    match clause.number {
        8.. => combined_from_8(clause, random),
        _ => combined_below_8(clause, random),
    }
}

fn combined_below_8(clause: Clause, random: &mut Random) -> Vec<u8> {
    // Two of 6 can't be had in this way; two of 5 or of 7 can.
    let lowest = clause.number + u64::from(!matches!(clause.number, 5 | 7));
    loop {
        let mut made = good(random);
        // Those for 8 to 11 lean on one another's links, so there is one of them.
        let mut numbers = vec![between(random, 8, 11)];
        numbers.extend((lowest.max(3)..8).rev().filter(|_| once_in(random, 2)));
        let possible = numbers.iter().all(|&number| {
            let mut others = CLAUSES.to_vec();
            others.retain(|other| other.number == number);
            mutate(pick(random, &others), random, &mut made)
        });
        if possible && mutate(clause, random, &mut made) {
            return made.image;
        }
    }
}

/// With at least one other.
fn combined_from_8(clause: Clause, random: &mut Random) -> Vec<u8> {
    loop {
        let mut made = good(random);
        let mut others: Vec<Clause> = Vec::new();
        for number in (clause.number + 1..=11).rev() {
            if once_in(random, 2) {
                others.push(one_of(random, |other| other.number == number));
            }
        }
        if others.is_empty() || once_in(random, 3) {
            others.push(one_of(random, |other| beside(clause, other)));
        }
        let possible = others
            .into_iter()
            .all(|other| mutate(other, random, &mut made));
        if possible && mutate(clause, random, &mut made) {
            return made.image;
        }
    }
}

fn one_of(random: &mut Random, test: impl Fn(Clause) -> bool) -> Clause {
    let mut clauses = CLAUSES.to_vec();
    clauses.retain(|&clause| test(clause));
    pick(random, &clauses)
}

/// Whether a mutation of the same number leaves what the one for the clause needs.
fn beside(clause: Clause, other: Clause) -> bool {
    if other.number != clause.number {
        return false;
    }
    match clause.number {
        // The committed items have to be ENTRYs still.
        9 => !matches!(other, COMMITTED_ZERO | COMMITTED_KIND),
        // What is drawn anew loses the words that were set.
        11 => !matches!(
            other,
            DATA_HASH | FIELD_HASH | ITEM_HASH | XOR_HASH | OTHER_NAME_CHAINED | OTHER_NAME_OFF
        ),
        _ => true,
    }
}
