//! Refused images are answered by their number alone, whatever foreign objects stand in them.
use super::example::drawn;
use super::naming::{bare, Tried};
use checks::against::trial::with;
use checks::generator::draft::Part;
use checks::generator::mutation;
use checks::random::Random;
use reading::image::Image;
use reading::layout::{header, kind::FIRST_FOREIGN, MOST_BYTES};
use reading::refusal::{refusal, CLAUSES};
use wrapper::raw;

/// Each clause, alone and combined. From 7 on the walk passes, and many of the images have foreign
/// objects that a call could name in spite of the refusal.
#[test]
fn every_clause() {
    let mut tried = Tried::default();
    let mut with_some = [0; 12];
    for (number, &clause) in CLAUSES.iter().enumerate() {
        let rounds = if clause.number == 2 { 1 } else { 12 };
        for seed in 0..rounds {
            let random = &mut Random::new(seed + 1_000 * number as u64);
            for image in [
                mutation::targeted(clause, random),
                mutation::combined(clause, random),
            ] {
                tried.image(&image);
                let number = refusal(&image);
                if number >= 7 {
                    let walked = Image::walked(&image).objects;
                    let foreign = walked.iter().any(|it| it.kind >= FIRST_FOREIGN);
                    with_some[number as usize] += foreign as u64;
                }
            }
        }
    }
    tried.print("every clause");
    assert!(tried.refused[1..].iter().all(|&n| n > 0));
    assert!(with_some[7..].iter().all(|&n| n > 20), "{with_some:?}");
}

/// A file with one at its start and one as its tail object, with a damage of each number.
#[test]
fn every_number() {
    let mut draft = bare();
    draft.add(Part::Foreign { kind: 8, size: 17 }, 0);
    let last = draft.add(Part::Foreign { kind: 9, size: 16 }, draft.order.len());
    let made = drawn(&draft);
    let (image, tail) = (&made.image, made.offsets[last]);
    assert_eq!(raw::foreign(image, 1).offset, tail);
    let mut longer = image.clone();
    longer.resize(MOST_BYTES as usize + 1, 0);
    let word = |at: u64| made.word(at);
    let entry = made.offsets[draft.committed[0]];
    let data = made.offsets[super::example::LOT];
    let damaged = [
        (1, image[..255].to_vec()),
        (2, longer),
        (3, with(image, 0, word(0) ^ 1)),
        (4, with(image, header::COMPATIBLE_FLAGS, 1 << 40)),
        (5, with(image, header::HEADER_SIZE, 260)),
        // The header is that long, and the arena passes the image.
        (5, with(image, header::HEADER_SIZE, 264)),
        // The tail object is too small; the walk misses it.
        (6, with(image, tail + 8, 15)),
        (6, with(image, header::TAIL_OBJECT_OFFSET, tail + 8)),
        (7, with(image, header::DATA_HASH_TABLE_OFFSET, 256)),
        (8, with(image, header::ENTRY_ARRAY_OFFSET, tail)),
        (9, with(image, header::N_ENTRIES, 1 << 20)),
        (10, with(image, data + reading::layout::data::N_ENTRIES, 1)),
        (11, with(image, entry + reading::layout::entry::XOR_HASH, 0)),
    ];
    let mut tried = Tried::default();
    for (number, image) in damaged {
        for place in [0, 1, 2, u64::MAX] {
            let right = raw::Foreign {
                refusal: number,
                ..raw::Foreign::default()
            };
            assert_eq!(raw::foreign(&image, place), right);
        }
        tried.image(&image);
    }
    assert_eq!(tried.refused, [0, 1, 1, 1, 1, 2, 2, 1, 1, 1, 1, 1]);
}

/// Short inputs, at every length.
#[test]
fn short_inputs() {
    let mut tried = Tried::default();
    let image = drawn(&bare()).image;
    for length in 0..=400 {
        tried.image(&vec![0; length]);
        tried.image(&Random::new(length as u64).bytes(length));
        tried.image(&image[..length]);
    }
    tried.print("short inputs");
}
