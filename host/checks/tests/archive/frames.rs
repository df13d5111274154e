//! The archive's `benchmark_framed` against the independent reading: the lowest of refusals 1 to 7
//! that applies, or 0.
use checks::against::trial::{with, Tried};
use checks::generator::frame::{frame_in, set};
use checks::generator::worked::{made, made_with};
use checks::generator::{good, grown, mutation};
use checks::random::Random;
use measured::framed;
use reading::image::first_object;
use reading::layout::{header, kind, Layout, HEADER_SIZES, MOST_BYTES};

pub fn tried() -> Tried {
    Tried::new(framed, 7)
}

/// Every type, the smallest of each and one that is not the smallest.
pub fn every_type(layout: Layout, header_size: u64) -> Vec<u8> {
    let (data, entry, array) = match layout {
        Layout::Regular => ([65, 73], [80, 96], [32, 40]),
        Layout::Compact => ([73, 81], [68, 72], [28, 32]),
    };
    let objects = [
        (kind::DATA, data[0]),
        (kind::FIELD, 41),
        (kind::ENTRY, entry[0]),
        (kind::ENTRY_ARRAY, array[0]),
        (kind::TAG, 64),
        (8, 16),
        (kind::DATA, data[1]),
        (kind::ENTRY, entry[1]),
        (kind::ENTRY_ARRAY, array[1]),
        (255, 23),
    ];
    frame_in(layout, header_size, &objects)
}

/// Every layout with every header size.
pub fn forms() -> impl Iterator<Item = (Layout, u64)> {
    let both = Layout::BOTH.into_iter();
    both.flat_map(|layout| HEADER_SIZES.map(|header_size| (layout, header_size)))
}

#[test]
fn worked_examples() {
    let mut tried = tried();
    let mut number = |image: &[u8]| tried.number(image);
    assert_eq!(number(&[]), 1);
    assert_eq!(number(&[0; 255]), 1);
    assert_eq!(number(&[0; 256]), 3);
    let image = made(320, 0);
    assert_eq!(number(&image), 0);
    assert_eq!(number(&with(&image, header::ARENA_SIZE, 72)), 5);
    assert_eq!(number(&with(&image, header::TAIL_OBJECT_OFFSET, 0)), 6);
    assert_eq!(
        number(&with(&image, header::DATA_HASH_TABLE_OFFSET, 256)),
        7
    );
    assert_eq!(
        number(&with(&image, header::FIELD_HASH_TABLE_OFFSET, 288)),
        7
    );
    // With a header of 272 all stands 16 bytes later.
    let image = made_with(272, 336, 0);
    assert_eq!(number(&image), 0);
    assert_eq!(number(&with(&image, header::ARENA_SIZE, 72)), 5);
    assert_eq!(number(&with(&image, header::TAIL_OBJECT_OFFSET, 288)), 6);
    for wrong in [256, 272, 304] {
        let image = with(&image, header::DATA_HASH_TABLE_OFFSET, wrong);
        assert_eq!(number(&image), 7);
    }
    for (layout, header_size) in forms() {
        assert_eq!(number(&every_type(layout, header_size)), 0);
        // Walked from another place there is no object, or there are no tables.
        for other in HEADER_SIZES.into_iter().filter(|&it| it != header_size) {
            let image = every_type(layout, header_size);
            let arena_size = image.len() as u64 - other;
            let image = with(&image, header::HEADER_SIZE, other);
            assert!(matches!(
                number(&with(&image, header::ARENA_SIZE, arena_size)),
                6 | 7
            ));
        }
    }
}

/// 5 names three sizes; no other is taken for one of them.
#[test]
fn header_sizes() {
    let mut tried = tried();
    let mut sizes: Vec<u64> = (0..700).collect();
    for size in HEADER_SIZES {
        sizes.extend([8, 16, 31, 32, 48, 63].map(|bit| (1 << bit) + size));
        sizes.extend([0u64.wrapping_sub(size), !size, size << 32, size << 56]);
    }
    sizes.extend([1 << 31, 1 << 32, 1 << 63, u64::MAX - 7, u64::MAX]);
    for (layout, header_size) in forms() {
        let image = every_type(layout, header_size);
        let end = image.len() as u64;
        for &size in &sizes {
            let image = with(&image, header::HEADER_SIZE, size);
            let number = tried.number(&image);
            assert_eq!(number == 0, size == header_size, "{size}");
            assert!(number == 5 || HEADER_SIZES.contains(&size), "{size}");
            // The same with an arena that ends where it did, and with none.
            let arena_size = end.wrapping_sub(size);
            tried.image(&with(&image, header::ARENA_SIZE, arena_size));
            tried.image(&with(&image, header::ARENA_SIZE, 0));
        }
    }
    tried.print("header sizes");
}

/// Images of 256 to 280 bytes that call for a header of each size: one that ends before it is 5, and no
/// longer 1.
#[test]
fn shorter_than_the_header() {
    let mut tried = tried();
    for (layout, header_size) in forms() {
        let whole = every_type(layout, header_size);
        for length in 250..=280 {
            for arena_size in [0, 8, 16, 24, 64, u64::MAX - 271, u64::MAX - 7] {
                for tail in [0, 256, 264, 272, 304] {
                    let mut image = with(&whole, header::ARENA_SIZE, arena_size);
                    set(&mut image, header::TAIL_OBJECT_OFFSET, tail);
                    image.truncate(length);
                    let sum = header_size as u128 + arena_size as u128;
                    let number = match length {
                        0..256 => 1,
                        _ if sum > length as u128 => 5,
                        _ => 6,
                    };
                    assert_eq!(tried.number(&image), number, "{header_size}, {length}");
                }
            }
        }
    }
    tried.print("shorter than the header");
}

/// 8,388,608 bytes are taken, one more is not, whatever else is wrong.
#[test]
fn the_longest_image() {
    let mut tried = tried();
    let most = MOST_BYTES as usize;
    let mut image = made(most, 0);
    assert!(tried.image(&image).is_empty());
    // One object from the tables to the end, which is the tail object.
    image[320] = 8;
    set(&mut image, 328, MOST_BYTES - 320);
    set(&mut image, header::TAIL_OBJECT_OFFSET, 320);
    assert!(tried.image(&image).is_empty());
    set(&mut image, 328, MOST_BYTES - 319);
    assert_eq!(tried.image(&image)[0].number, 6);
    image.push(0);
    assert_eq!(tried.image(&image)[0].number, 2);
    assert!(tried.image(&made_with(272, most, 0)).is_empty());
    assert_eq!(tried.image(&vec![0; most])[0].number, 3);
    assert_eq!(tried.image(&vec![0; most + 1])[0].number, 2);
}

#[test]
fn good_images() {
    let mut tried = tried();
    for seed in 0..5_000 {
        let image = good::good(&mut Random::new(seed)).image;
        assert!(tried.image(&image).is_empty());
    }
    for seed in 0..500 {
        let image = grown::grown(&mut Random::new(seed), 8);
        assert!(tried.image(&image).is_empty());
    }
    tried.print("good images");
}

#[test]
fn every_clause() {
    tried().every_clause(|number| if number == 2 { 4 } else { 400 });
}

#[test]
fn untargeted_mutations() {
    let mut tried = tried();
    for seed in 0..60_000 {
        tried.image(&mutation::untargeted(&mut Random::new(seed + 7_000_000)));
    }
    tried.print("untargeted mutations");
    assert!((0..8).all(|number| number == 2 || tried.answers[number] > 100));
}

/// Files of journald, with other tail objects and arenas in those that pass.
#[test]
fn real_files() {
    tried().real_files(|tried, image| {
        for at in (0..=image.len() as u64 + 16).step_by(40) {
            tried.image(&with(image, header::TAIL_OBJECT_OFFSET, at));
            let first = first_object(image);
            if first <= at {
                tried.image(&with(image, header::ARENA_SIZE, at - first));
            }
        }
    });
}
