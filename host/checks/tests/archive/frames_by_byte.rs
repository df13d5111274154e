//! `benchmark_framed` with every byte, every two words and every length at all that the rules
//! compare.
use super::frames::{every_type, forms, tried};
use checks::against::trial::{with, Tried};
use checks::generator::frame::{frame_in, set};
use checks::generator::worked::{made, made_with};
use checks::random::Random;
use reading::image::{le64, Image};
use reading::layout::{header, kind, Layout};

/// Each byte of the header and of the objects' heads at each of its 256 values.
#[test]
fn every_value_of_every_byte() {
    let mut tried = tried();
    for image in [
        made(320, 0),
        every_type(Layout::Regular, 264),
        every_type(Layout::Compact, 264),
        made_with(272, 336, 0),
    ] {
        let mut places: Vec<u64> = (0..272).collect();
        for object in Image::walked(&image).objects {
            places.extend(object.offset..object.offset + 16);
        }
        for at in places {
            let mut image = image.clone();
            for value in 0..=255 {
                image[at as usize] = value;
                tried.image(&image);
            }
        }
    }
    tried.print("every value of every byte");
}

/// Values at the edges of what the rules compare, around what stands there, and near 2^64.
fn edges(is: u64) -> Vec<u64> {
    let mut values = vec![
        0, 1, 7, 8, 15, 16, 24, 28, 31, 32, 40, 41, 64, 65, 68, 72, 73, 80, 255, 256, 257, 264, 272,
    ];
    values.extend([280, 288, 304, 312, 320, 328, 336]);
    values.extend([1, 7, 8, 16].map(|far| is.wrapping_add(far)));
    values.extend([1, 7, 8, 16].map(|far| is.wrapping_sub(far)));
    values.extend([0, 6, 7, 15, 255, 263, 287, 319].map(|far| u64::MAX - far));
    values.extend([1 << 32, 1 << 61, (1 << 63) - 8, 1 << 63]);
    values
}

/// Every two words that 1 to 7 read, at every two edges.
#[test]
fn every_two_words() {
    let mut tried = tried();
    for layout in Layout::BOTH {
        every_two_words_of(&mut tried, &frame_in(layout, 272, &[(kind::DATA, 75)]));
    }
    tried.print("every two words");
}

fn every_two_words_of(tried: &mut Tried, image: &[u8]) {
    let mut places = vec![8];
    places.extend((header::HEADER_SIZE..=header::TAIL_OBJECT_OFFSET).step_by(8));
    for object in Image::walked(image).objects {
        places.extend([object.offset, object.offset + 8]);
    }
    for (i, &one) in places.iter().enumerate() {
        for first in edges(le64(image, one)) {
            let image = with(image, one, first);
            for &other in &places[i + 1..] {
                for second in edges(le64(&image, other)) {
                    tried.image(&with(&image, other, second));
                }
            }
        }
    }
}

/// The arena that the image's length leaves.
fn arena_to_the_end(image: &mut [u8]) {
    let header_size = le64(image, header::HEADER_SIZE);
    let arena_size = (image.len() as u64).saturating_sub(header_size) / 8 * 8;
    set(image, header::ARENA_SIZE, arena_size);
}

/// Inputs of every length up to 600: zeros or anything, with some or all of a header that fits.
#[test]
fn short_and_random_inputs() {
    let mut tried = tried();
    let heads = [
        vec![0; 256],
        made(320, 0),
        every_type(Layout::Compact, 264),
        made_with(272, 336, 0),
    ];
    for length in 0..=600 {
        let random = &mut Random::new(length as u64);
        for round in 0..20 {
            let mut image = random.bytes(length);
            if round < 10 {
                image.fill(0);
            }
            for part in [0..8, 8..16, 88..96, 96..104, 104..136, 136..144] {
                if part.end <= length && random.below(8) != 0 {
                    image[part.clone()].copy_from_slice(&heads[round % 4][part]);
                }
            }
            tried.image(&image);
            if 256 <= length {
                arena_to_the_end(&mut image);
                tried.image(&image);
            }
        }
    }
    tried.print("short and random inputs");
}

/// A good image cut at every length: as it is, with the arena that is left, and with the last
/// object that starts in it as the tail object.
#[test]
fn every_cut() {
    let mut tried = tried();
    for (layout, header_size) in forms() {
        let whole = every_type(layout, header_size);
        let objects = Image::walked(&whole).objects;
        for length in 0..=whole.len() {
            let mut image = whole[..length].to_vec();
            tried.image(&image);
            if 256 <= length {
                arena_to_the_end(&mut image);
                tried.image(&image);
                let tail = objects.iter().rev().find(|it| it.offset < length as u64);
                let tail = tail.map_or(header_size, |it| it.offset);
                set(&mut image, header::TAIL_OBJECT_OFFSET, tail);
                tried.image(&image);
            }
        }
    }
    tried.print("every cut");
}
