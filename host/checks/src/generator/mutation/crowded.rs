//! Several mutations for one number, at several places.
use super::clause::mutate;
use crate::generator::dice::{between, once_in, pick};
use crate::generator::good::{draft, good};
use crate::generator::render::render;
use crate::generator::wish::Wish;
use crate::random::Random;
use reading::refusal::clause::*;

/// A good image, now and then one with more objects, with two to five mutations for 6 or for one of 8 to
/// 11.
pub fn crowded(number: u64, random: &mut Random) -> Vec<u8> {
    let mut all = CLAUSES.to_vec();
    all.retain(|clause| clause.number == number);
    let wish = Wish {
        tidy: false,
        entries: 12,
        data: 16,
    };
    loop {
        let mut made = match once_in(random, 3) {
            true => render(&draft(random, wish), random),
            false => good(random),
        };
        let count = between(random, 2, 5);
        let mut chosen: Vec<Clause> = (0..count).map(|_| pick(random, &all)).collect();
        chosen.sort_by_key(|&clause| turn(clause));
        // Of those that come last, one: it may leave what no other mutation can do with.
        let last = chosen.partition_point(|&clause| turn(clause) < LAST);
        chosen.truncate(last + 1);
        let mut done = 0;
        for clause in chosen {
            let before = made.clone();
            match mutate(clause, random, &mut made) {
                true => done += 1,
                false => made = before,
            }
        }
        if done > 1 {
            return made.image;
        }
    }
}

const LAST: u64 = 2;

/// When its turn comes: what is drawn anew loses the words that were set; a walk that is broken, and a
/// committed item that is no ENTRY, leave nothing to find the others by.
fn turn(clause: Clause) -> u64 {
    match clause {
        FLAG_BIT_0 | FLAG_BIT_1 | FLAG_BIT_2 | TYPE_ZERO => 0,
        COMMITTED_ZERO | COMMITTED_KIND => LAST,
        DATA_HASH | FIELD_HASH | ITEM_HASH | XOR_HASH | OTHER_NAME_CHAINED | OTHER_NAME_OFF => 1,
        _ if clause.number == 6 => LAST,
        _ => 0,
    }
}
