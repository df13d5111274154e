//! Untargeted mutations.
use super::clause::mutate;
use super::noise;
use crate::generator::dice::{between, once_in, pick};
use crate::generator::good::good;
use crate::generator::grown::grown;
use crate::random::Random;
use reading::image::Image;
use reading::refusal::CLAUSES;

/// A good image with some mutations of any kind, or no journal at all. The one for more than
/// 8,388,608 bytes is left out, for its size.
pub fn untargeted(random: &mut Random) -> Vec<u8> {
    if once_in(random, 40) {
        return noise::no_journal(random);
    }
    if once_in(random, 20) {
        let image = grown(random, 6);
        return mutated(random, &image);
    }
    let mut made = good(random);
    let whole = made.clone();
    if once_in(random, 3) {
        let clause = pick(random, CLAUSES);
        if clause.number != 2 && !mutate(clause, random, &mut made) {
            made = whole.clone();
        }
    }
    let times = pick(random, &[1, 1, 1, 2, 3, 6]);
    several(random, &offsets(&whole.image), made.image, times)
}

/// An image that opens, with some untargeted mutations.
pub fn mutated(random: &mut Random, image: &[u8]) -> Vec<u8> {
    let times = pick(random, &[1, 1, 1, 2, 3, 6]);
    several(random, &offsets(image), image.to_vec(), times)
}

fn offsets(image: &[u8]) -> Vec<u64> {
    Image::walked(image)
        .objects
        .iter()
        .map(|object| object.offset)
        .collect()
}

fn several(random: &mut Random, offsets: &[u64], mut image: Vec<u8>, times: u64) -> Vec<u8> {
    for _ in 0..times {
        match random.below(8) {
            0 | 1 => noise::byte(random, &mut image),
            2 => noise::copied(random, &mut image),
            3 if once_in(random, 8) => {
                image.truncate(between(random, 0, image.len() as u64) as usize)
            }
            4 if once_in(random, 4) => noise::header_size(random, &mut image),
            4 if once_in(random, 6) => noise::layout(&mut image),
            5 => noise::half(random, offsets, &mut image),
            _ => noise::word(random, offsets, &mut image),
        }
    }
    image
}
