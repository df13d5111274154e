//! Mutations for refusals 1 to 5.
use crate::generator::dice::{between, once_in, pick};
use crate::generator::rendered::Rendered;
use crate::random::Random;
use reading::layout::{header, HEADER_SIZES, MOST_BYTES};
use reading::refusal::clause::*;

/// Sizes that no header has, near those that one has and where fewer bits would show one of them.
const OTHER_SIZES: [u64; 19] = [
    0,
    8,
    16,
    240,
    248,
    255,
    257,
    260,
    263,
    265,
    268,
    271,
    273,
    280,
    512,
    (1 << 16) + 264,
    (1 << 32) + 256,
    (1 << 32) + 272,
    u64::MAX,
];

pub fn mutate(clause: Clause, random: &mut Random, made: &mut Rendered) -> bool {
    let length = made.image.len() as u64;
    let header_size = made.draft.header_size;
    match clause {
        SHORT => {
            let short = random.below(256);
            made.image.truncate(pick(random, &[0, 8, 255, short]));
        }
        LONG => {
            let more = if once_in(random, 2) {
                1
            } else {
                between(random, 1, 5000)
            };
            made.image.resize((MOST_BYTES + more) as usize, 0);
        }
        SIGNATURE_DIFFERS => made.image[random.below(8)] ^= 1 << random.below(8),
        INCOMPATIBLE_BIT => {
            for _ in 0..between(random, 1, 3) {
                let bit = pick(random, &[0, 1, 3, 5, 6, 7, 8, 9, 12, 16, 20, 24, 28, 31]);
                made.image[12 + bit / 8] |= 1 << (bit % 8);
            }
            // The two bits that are known excuse no other.
            made.image[12] ^= pick(random, &[0, 0, 4, 16, 20]);
        }
        HEADER_SIZE => {
            // With the arena shortened by what is added, the sum stays.
            let size = pick(random, &OTHER_SIZES);
            let arena_size = made.arena_end.saturating_sub(size) / 8 * 8;
            made.set(header::HEADER_SIZE, size);
            if once_in(random, 2) {
                made.set(header::ARENA_SIZE, arena_size);
            }
        }
        ARENA_NOT_EIGHTS => {
            let less = between(random, 1, 7);
            made.set(header::ARENA_SIZE, made.arena_end - header_size - less);
        }
        SUM_ABOVE_LENGTH => {
            if once_in(random, 2) {
                let least = length.saturating_sub(header_size) / 8 * 8 + 8;
                let far = 1 << between(random, 30, 62);
                made.set(header::ARENA_SIZE, least + pick(random, &[0, 8, 800, far]));
            } else {
                let left = made.arena_end - between(random, 1, 20);
                made.image.truncate(left as usize);
            }
        }
        SUM_ABOVE_64_BITS => {
            let over = 8 * between(random, 0, 31);
            made.set(header::ARENA_SIZE, 0u64.wrapping_sub(header_size) + over);
        }
        HEADER_ABOVE_LENGTH => {
            // A short image, that 1 lets pass and whose bytes end inside the header that it has or
            // calls for.
            let size = pick(random, &HEADER_SIZES[1..]);
            made.set(header::HEADER_SIZE, size);
            if !once_in(random, 3) {
                made.set(header::ARENA_SIZE, pick(random, &[0, 8, 64]));
            }
            let left = between(random, 256, size - 1);
            made.image.truncate(left as usize);
        }
        _ => return false,
    }
    true
}
