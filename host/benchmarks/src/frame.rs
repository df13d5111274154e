//! Refusals 1 to 7, alone and with the object map, of images of the greatest length: against plain
//! Rust with the same passes over the objects, and against plain Rust with one.
use crate::plain::frame as plain;
use crate::plain::reads;
use crate::timing::{heading, measure, row};
use checks::generator::frame::{frame as framed_image, set};
use checks::generator::mutation::untargeted;
use checks::random::Random;
use measured::framed;
use reading::layout::{header, MOST_BYTES};
use std::hint::black_box;

/// Where the objects of a frame start.
const FIRST_OBJECT: u64 = 256;

struct Full {
    label: String,
    image: Vec<u8>,
}

pub fn frame() {
    same_answers();
    let full = [
        full("DATA", &[(1, 65, 96)]),
        full(
            "all kinds",
            &[
                (1, 65, 120),
                (2, 41, 60),
                (3, 80, 112),
                (6, 56, 88),
                (7, 64, 64),
                (9, 16, 120),
            ],
        ),
    ];
    let passes: [(&str, fn(&[u8]) -> u64); 2] = [
        ("1 to 7", black_box(plain::refusal)),
        ("  one pass", black_box(plain::refusal_in_one_pass)),
    ];
    for (title, plain) in passes {
        heading(title);
        for Full { label, image } in &full {
            let times = measure(|| framed(black_box(image)), || plain(black_box(image)));
            row(label, image.len(), &times);
        }
    }
    map(&full);
}

fn map(full: &[Full]) {
    let passes: [(&str, fn(&[u8], u64) -> u64); 2] = [
        ("and map", black_box(plain::map)),
        ("  one pass", black_box(plain::map_in_one_pass)),
    ];
    for (title, plain) in passes {
        heading(title);
        for Full { label, image } in full {
            let times = measure(
                || measured::map(black_box(image), black_box(FIRST_OBJECT)),
                || plain(black_box(image), black_box(FIRST_OBJECT)),
            );
            row(label, image.len(), &times);
        }
    }
}

/// An image of the greatest length, full of objects of these types, each with a size from one to
/// another.
fn full(label: &str, kinds: &[(u8, u64, u64)]) -> Full {
    let mut random = Random::new(2);
    let mut objects = Vec::new();
    let mut end = FIRST_OBJECT + 64;
    loop {
        let (kind, least, most) = kinds[random.below(kinds.len())];
        // An ENTRY and an ENTRY_ARRAY have items of 16 and of 8 bytes.
        let step = match kind {
            3 => 16,
            6 => 8,
            _ => 1,
        };
        let size = least + step * random.below(((most - least) / step + 1) as usize) as u64;
        end += (size + 7) / 8 * 8;
        if end > MOST_BYTES {
            break;
        }
        objects.push((kind, size));
    }
    let mut image = framed_image(&objects);
    image.resize(MOST_BYTES as usize, 0);
    set(&mut image, header::ARENA_SIZE, MOST_BYTES - FIRST_OBJECT);
    assert_eq!(framed(&image), 0);
    let label = format!("{} {label}", objects.len() + 2);
    Full { label, image }
}

/// Only what answers the same can be compared.
fn same_answers() {
    for seed in 0..20_000 {
        let image = untargeted(&mut Random::new(seed));
        if !reads(&image) {
            continue;
        }
        let answer = framed(&image);
        assert_eq!(plain::refusal(&image), answer);
        assert_eq!(plain::refusal_in_one_pass(&image), answer);
        if seed < 1_000 {
            for at in (248..500).step_by(4) {
                let answer = measured::map(&image, at);
                assert_eq!(plain::map(&image, at), answer);
                assert_eq!(plain::map_in_one_pass(&image, at), answer);
            }
        }
    }
}
