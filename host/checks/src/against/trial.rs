//! How an image is tried: lent amid other bytes, and a call's answer compared with the reading's.
use std::collections::BTreeMap;

use super::lent::Lent;
use crate::corpus::{self, FILES};
use crate::generator::frame::set;
use crate::generator::mutation;
use crate::random::Random;
use reading::refusal::{clauses, Clause, CLAUSES};

/// Lends the image amid other bytes, at an alignment that goes with the number, and sees
/// that neither the image nor what is around it changed.
pub fn lend<T>(image: &[u8], number: u64, call: impl FnOnce(&[u8]) -> T) -> T {
    let mut lent = Lent::new(image, number);
    let answer = call(lent.bytes());
    let same = lent.after() == Some(image);
    assert!(same, "the image or what is around it changed");
    answer
}

/// The start of an image, to find out about it.
pub fn hex(image: &[u8]) -> String {
    let shown = &image[..image.len().min(4096)];
    let digits: String = shown.iter().map(|byte| format!("{byte:02x}")).collect();
    format!("{} bytes: {digits}", image.len())
}

/// The image with another number at a place.
pub fn with(image: &[u8], at: u64, value: u64) -> Vec<u8> {
    let mut image = image.to_vec();
    set(&mut image, at, value);
    image
}

/// A call that answers the lowest refusal up to a number, and how many images were tried, by the
/// answer.
pub struct Tried {
    call: fn(&[u8]) -> u64,
    highest: u64,
    pub answers: [u64; 12],
}

impl Tried {
    pub fn new(call: fn(&[u8]) -> u64, highest: u64) -> Tried {
        Tried {
            call,
            highest,
            answers: [0; 12],
        }
    }

    /// Compares the call's answer with the reading's, and gives the clauses that the reading found.
    pub fn image(&mut self, image: &[u8]) -> Vec<Clause> {
        let mut found = clauses(image);
        found.retain(|clause| clause.number <= self.highest);
        let expected = found.first().map_or(0, |clause| clause.number);
        let answer = lend(image, self.answers.iter().sum(), self.call);
        if answer != expected {
            panic!("{answer}, and not {expected}: {found:?} of {}", hex(image));
        }
        self.answers[answer as usize] += 1;
        found
    }

    /// The same; the number.
    pub fn number(&mut self, image: &[u8]) -> u64 {
        self.image(image).first().map_or(0, |clause| clause.number)
    }

    /// Targeted mutations for each clause, this many times by its number. A clause is alone where
    /// no other of its number applies and nothing else was mutated. It is combined where another
    /// one of its number applies too, or where there are mutations for higher numbers in the same
    /// image.
    pub fn every_clause(&mut self, rounds: fn(u64) -> u64) {
        let (mut alone, mut together) = (BTreeMap::new(), BTreeMap::new());
        let mut all = CLAUSES.to_vec();
        all.retain(|clause| clause.number <= self.highest);
        for (number, &clause) in all.iter().enumerate() {
            for seed in 0..rounds(clause.number) {
                let random = &mut Random::new(seed + 1_000 * number as u64);
                let found = self.image(&mutation::targeted(clause, random));
                let table = if found.len() == 1 {
                    &mut alone
                } else {
                    &mut together
                };
                for &clause in &found {
                    *table.entry(clause).or_insert(0) += 1;
                }
                for &clause in &self.image(&mutation::combined(clause, random)) {
                    *together.entry(clause).or_insert(0) += 1;
                }
            }
        }
        println!("{:>3} {:>6} {:>10}", "no.", "alone", "combined");
        for clause in &all {
            let of = |table: &BTreeMap<Clause, u64>| table.get(clause).copied().unwrap_or(0);
            let (alone, together) = (of(&alone), of(&together));
            let Clause { number, name } = clause;
            println!("{number:>3} {alone:>6} {together:>10}  {name}");
            assert!(together > 0, "{clause:?}");
            // Equal offsets are the same entry, so equal seqnums come with them.
            assert!(alone > 0 || *name == "offsets equal", "{clause:?}");
        }
        self.print("targeted mutations");
    }

    /// Files of journald: as they are, and those that open also as they are changed by `more`.
    pub fn real_files(&mut self, more: impl Fn(&mut Tried, &[u8])) {
        for (name, number) in FILES {
            let image = corpus::image(name);
            assert_eq!(self.number(&image), number, "{name}");
            if number == 0 {
                more(self, &image);
            }
        }
        self.print("real files");
    }

    pub fn print(&self, what: &str) {
        let all: u64 = self.answers.iter().sum();
        println!("{what}: {all} images, by their answers {:?}", self.answers);
    }
}
