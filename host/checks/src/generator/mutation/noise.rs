//! Untargeted mutations: bytes and words anywhere, and inputs that are no journal.
use crate::generator::dice::{between, edge, once_in, pick};
use crate::random::Random;
use reading::image::{arena_end, le32, le64};
use reading::layout::{header, COMPACT, HEADER_SIZES, SIGNATURE};

/// Puts a word at an edge of what was there, or an offset of some object, at a random place.
pub fn word(random: &mut Random, offsets: &[u64], image: &mut [u8]) {
    if image.len() < 8 {
        return;
    }
    let at = place(random, image);
    let near = le64(image, at);
    let value = if once_in(random, 3) {
        pick(random, offsets)
    } else {
        edge(random, near)
    };
    image[at as usize..at as usize + 8].copy_from_slice(&value.to_le_bytes());
}

/// The same with a number of 32 bits.
pub fn half(random: &mut Random, offsets: &[u64], image: &mut [u8]) {
    if image.len() < 8 {
        return;
    }
    let at = place(random, image) + pick(random, &[0, 4]);
    let near = le32(image, at).into();
    let value = if once_in(random, 3) {
        pick(random, offsets)
    } else {
        edge(random, near)
    };
    image[at as usize..at as usize + 4].copy_from_slice(&(value as u32).to_le_bytes());
}

/// Calls a regular image compact, or a compact one regular.
pub fn layout(image: &mut [u8]) {
    if let Some(flags) = image.get_mut(header::INCOMPATIBLE_FLAGS as usize) {
        *flags ^= COMPACT as u8;
    }
}

/// A multiple of 8, often in the header.
fn place(random: &mut Random, image: &[u8]) -> u64 {
    let words = image.len() / 8;
    if once_in(random, 4) {
        8 * random.below(words.min(34)) as u64
    } else {
        8 * random.below(words) as u64
    }
}

/// Puts a byte at a random place.
pub fn byte(random: &mut Random, image: &mut [u8]) {
    if image.is_empty() {
        return;
    }
    let at = if once_in(random, 4) {
        random.below(image.len().min(272))
    } else {
        random.below(image.len())
    };
    image[at] = match random.below(4) {
        0 => image[at] ^ 1 << random.below(8),
        1 => image[at].wrapping_add(1),
        2 => pick(random, &[0, 1, 2, 3, 4, 5, 6, 7, 8, 255]),
        _ => random.word() as u8,
    };
}

/// Copies a word over another one.
pub fn copied(random: &mut Random, image: &mut [u8]) {
    if image.len() < 8 {
        return;
    }
    let (from, to) = (place(random, image), place(random, image));
    let value = le64(image, from);
    image[to as usize..to as usize + 8].copy_from_slice(&value.to_le_bytes());
}

/// Puts another of the three sizes into the header; often the arena ends where it did.
pub fn header_size(random: &mut Random, image: &mut [u8]) {
    if image.len() < 256 {
        return;
    }
    let (size, end) = (pick(random, &HEADER_SIZES), arena_end(image) as u64);
    let mut set = |at: u64, value: u64| {
        image[at as usize..at as usize + 8].copy_from_slice(&value.to_le_bytes());
    };
    set(header::HEADER_SIZE, size);
    if !once_in(random, 3) {
        set(header::ARENA_SIZE, end.wrapping_sub(size));
    }
}

/// An input that is no journal: short, all zero, or anything, with or without the signature.
pub fn no_journal(random: &mut Random) -> Vec<u8> {
    let length = pick(
        random,
        &[0, 1, 8, 255, 256, 257, 264, 271, 272, 300, 320, 1000],
    );
    let mut image = if once_in(random, 2) {
        vec![0; length]
    } else {
        random.bytes(length)
    };
    if length >= 256 && !once_in(random, 3) {
        image[0..8].copy_from_slice(&SIGNATURE);
        image[12..16].fill(0);
        image[12] = pick(random, &[0, 4, 16, 20]);
        if once_in(random, 2) {
            let header_size = pick(random, &HEADER_SIZES);
            image[88..96].copy_from_slice(&header_size.to_le_bytes());
            let arena_size = (length as u64).saturating_sub(header_size) / 8 * 8;
            image[96..104].copy_from_slice(&arena_size.to_le_bytes());
        }
        if once_in(random, 2) {
            let tail = between(random, 30, 50) * 8;
            image[136..144].copy_from_slice(&tail.to_le_bytes());
        }
    }
    image
}
