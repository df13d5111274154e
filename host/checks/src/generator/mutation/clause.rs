//! A mutation that is meant for one clause.
use super::{committed, hashes, links, lists, low, objects, tables};
use crate::generator::good::good;
use crate::generator::rendered::Rendered;
use crate::random::Random;
use reading::refusal::Clause;

/// Mutates a good image so that a clause applies, which mostly succeeds; false where it can't be
/// tried.
pub fn mutate(clause: Clause, random: &mut Random, made: &mut Rendered) -> bool {
    match clause.number {
        1..=5 => low::mutate(clause, random, made),
        6 => objects::mutate(clause, random, made),
        7 => tables::mutate(clause, random, made),
        8 => links::mutate(clause, random, made),
        9 => committed::mutate(clause, random, made),
        10 => lists::mutate(clause, random, made),
        11 => hashes::mutate(clause, random, made),
        _ => false,
    }
}

/// A good image with a mutation meant for a clause; it mostly reaches it.
pub fn targeted(clause: Clause, random: &mut Random) -> Vec<u8> {
    loop {
        let mut made = good(random);
        if mutate(clause, random, &mut made) {
            return made.image;
        }
    }
}
