//! Images of every kind that the generator knows.
use super::dice::{between, pick};
use super::good::{draft, good};
use super::grown::grown;
use super::mutation;
use super::render::render;
use super::requests::fitting;
use super::wish::Wish;
use super::{appends, dice::once_in};
use crate::random::Random;
use reading::carry::carry_out;
use reading::plan::append;
use reading::refusal::{Clause, CLAUSES};

/// A good image with more entries and DATA than others have.
pub fn larger(random: &mut Random) -> Vec<u8> {
    let tidy = once_in(random, 2);
    let wish = Wish {
        tidy,
        // Sequence numbers may start 100 below 2^64, and rise by up to 4.
        entries: 24,
        data: 30,
    };
    render(&draft(random, wish), random).image
}

/// An image cut in the middle of an append: the first stores of its list are carried out.
pub fn cut(random: &mut Random) -> Vec<u8> {
    let mut list = vec![0; 16 * 3000];
    loop {
        let (mut image, asked) = if once_in(random, 2) {
            let case = appends::good(random);
            (case.image, case.asked)
        } else {
            let image = grown(random, 5);
            let asked = fitting(random, &image);
            (image, asked)
        };
        let answer = append(&image, &asked.request(), &mut list);
        if answer.refusal == 0 {
            let k = between(random, 0, answer.stores);
            assert_eq!(carry_out(&mut image, &list, k), 0);
            return image;
        }
    }
}

/// A clause of 1 to 11, without the one on long images, for their size.
fn clause(random: &mut Random) -> Clause {
    loop {
        let clause = pick(random, CLAUSES);
        if clause.number != 2 {
            return clause;
        }
    }
}

/// An image of any kind, good or mutated.
pub fn any(random: &mut Random) -> Vec<u8> {
    match random.below(16) {
        0 | 1 => good(random).image,
        2 => grown(random, 8),
        3 => larger(random),
        4 => cut(random),
        5 => {
            let image = cut(random);
            mutation::mutated(random, &image)
        }
        6 => {
            let image = larger(random);
            mutation::mutated(random, &image)
        }
        7 | 8 => {
            let image = good(random).image;
            mutation::mutated(random, &image)
        }
        9..=11 => mutation::targeted(clause(random), random),
        12 | 13 => mutation::combined(clause(random), random),
        _ => mutation::untargeted(random),
    }
}
