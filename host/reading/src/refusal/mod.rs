//! Refusals 1 to 11: "The lowest number that applies is the answer, each tested over the
//! whole image before the next. Accepted is 0."
pub mod clause;
mod committed;
pub mod fault;
mod hashes;
mod header;
mod links;
mod lists;
mod tables;
mod walk;

use super::image::Image;
pub use clause::{Clause, APPEND_CLAUSES, APPEND_ORDER, CLAUSES};
pub use fault::Fault;
pub use hashes::{wrong_hashes, WrongHash};

/// 0, or the lowest number of the table that applies.
pub fn refusal(bytes: &[u8]) -> u64 {
    match clauses(bytes).first() {
        Some(clause) => clause.number,
        None => 0,
    }
}

/// All clauses that apply at the lowest number that applies; none if the image is accepted.
pub fn clauses(bytes: &[u8]) -> Vec<Clause> {
    let mut found: Vec<Clause> = faults(bytes).iter().map(|fault| fault.clause).collect();
    found.sort();
    found.dedup();
    found
}

/// The same with every place where one applies, in the order of the tests.
pub fn faults(bytes: &[u8]) -> Vec<Fault> {
    let mut found = Vec::new();
    for test in [
        header::one,
        header::two,
        header::three,
        header::four,
        header::five,
        walk::six,
    ] {
        test(bytes, &mut found);
        if !found.is_empty() {
            return found;
        }
    }
    let image = Image::walked(bytes);
    for test in [
        tables::seven,
        links::eight,
        committed::nine,
        lists::ten,
        hashes::eleven,
    ] {
        test(&image, &mut found);
        if !found.is_empty() {
            return found;
        }
    }
    found
}
