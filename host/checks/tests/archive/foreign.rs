//! The archive's foreign objects: against what was put into a file, and against the independent
//! reading.
use super::example::drawn;
use super::naming::{bare, Tried};
use checks::against::trial::with;
use checks::corpus::{self, FILES};
use checks::generator::any::{any, cut, larger};
use checks::generator::dice::{between, once_in};
use checks::generator::draft::Part;
use checks::generator::frame::{frame_with, set};
use checks::generator::render::render;
use checks::generator::{foreign, good, grown};
use checks::random::Random;
use reading::image::first_object;
use reading::layout::{header, kind, HEADER_SIZES, MOST_BYTES};
use wrapper::raw;

/// Each type right after the tables, between other objects, and as the tail object.
#[test]
fn every_type() {
    let mut tried = Tried::default();
    let sizes = [16, 17, 23, 24, 25, 64, 999];
    for (kind, &size) in (8..=255).zip(sizes.iter().cycle()) {
        let last = bare().order.len();
        for position in [0, last / 2, last] {
            let mut draft = bare();
            draft.add(Part::Foreign { kind, size }, position);
            tried.drawn(&drawn(&draft));
        }
    }
    tried.print("every type");
    assert_eq!(tried.named[1], 248 * 3);
}

/// Every size, with another foreign object after it; and one as long as may be.
#[test]
fn every_size() {
    let mut tried = Tried::default();
    for header_size in HEADER_SIZES {
        // Behind the header and two tables of one cell.
        let first = header_size + 64;
        for size in (16..=130).chain([4_095, 65_535, 65_536, 65_537, 1 << 20, (1 << 20) + 1]) {
            let image = frame_with(header_size, &[(9, size), (10, 16)]);
            let second = first + size.next_multiple_of(8);
            tried.names(&image, &[(first, 9), (second, 10)]);
        }
        let longest = frame_with(header_size, &[(255, MOST_BYTES - first)]);
        assert_eq!(longest.len() as u64, MOST_BYTES);
        tried.names(&longest, &[(first, 255)]);
    }
    tried.print("every size");
}

/// Between every two objects, several in a row, TAGs beside them; with anything in free bytes, flags
/// among them, and counters that say another thing.
#[test]
fn anywhere() {
    let mut tried = Tried::default();
    for seed in 0..400 {
        let random = &mut Random::new(seed);
        let mut draft = bare();
        for _ in 0..between(random, 0, 12) {
            let (kind, size) = foreign::any(random);
            let part = match once_in(random, 4) {
                true => Part::Tag,
                false => Part::Foreign { kind, size },
            };
            draft.add(part, random.below(draft.order.len() + 1));
        }
        draft.noise = once_in(random, 2);
        draft.free_facts = once_in(random, 2);
        draft.spare = 8 * between(random, 0, 9);
        tried.drawn(&render(&draft, random));
    }
    tried.print("anywhere");
    assert!(tried.named.iter().all(|&n| n > 10));
}

/// Those behind the tail object are not walked: the tail object stands at each in turn, whatever
/// n_objects says.
#[test]
fn up_to_the_tail() {
    let mut tried = Tried::default();
    let objects = [(8, 16), (kind::TAG, 64), (200, 17), (200, 24), (8, 33)];
    for header_size in HEADER_SIZES {
        let image = frame_with(header_size, &objects);
        let mut put = Vec::new();
        let mut at = header_size + 64;
        tried.names(&with(&image, header::TAIL_OBJECT_OFFSET, at - 32), &put);
        for (kind, size) in objects {
            if kind != kind::TAG {
                put.push((at, kind));
            }
            let image = with(&image, header::TAIL_OBJECT_OFFSET, at);
            for n_objects in [0, 1, 3, 7, u64::MAX] {
                tried.names(&with(&image, header::N_OBJECTS, n_objects), &put);
            }
            at += size.next_multiple_of(8);
        }
        assert_eq!(put.len(), 4);
    }
}

/// The longest image, full of the smallest.
#[test]
fn as_many_as_there_may_be() {
    as_many(256, 524_268);
    as_many(272, 524_267);
}

fn as_many(header_size: u64, count: u64) {
    let objects = vec![(77, 16); count as usize];
    let image = frame_with(header_size, &objects);
    assert_eq!(image.len() as u64, MOST_BYTES);
    for place in [0, 1, 255, 256, 65_535, 65_536, count - 1] {
        let offset = header_size + 64 + 16 * place;
        let right = raw::Foreign {
            refusal: 0,
            offset,
            kind: 77,
        };
        assert_eq!(raw::foreign(&image, place), right);
    }
    for place in [count, count + 1, u64::MAX] {
        assert_eq!(raw::foreign(&image, place), raw::Foreign::default());
    }
}

/// Images of every kind, against the reading.
#[test]
fn every_kind() {
    let mut tried = Tried::default();
    for seed in 0..600 {
        let random = &mut Random::new(seed + 40_000);
        for image in [
            good::good(random).image,
            good::tidy(random).image,
            grown::grown(random, 12),
            cut(random),
            any(random),
        ] {
            tried.image(&image);
        }
        if seed < 60 {
            tried.image(&larger(random));
        }
    }
    tried.print("every kind");
    assert!(tried.named[..4].iter().all(|&n| n > 100));
}

/// Files of journald have none; then some are put behind their tail object.
#[test]
fn real_files() {
    let mut tried = Tried::default();
    for (name, number) in FILES {
        let mut image = corpus::image(name);
        assert_eq!(tried.image(&image), 0, "{name}");
        if number == 0 {
            let end = image.len() as u64;
            image.resize(image.len() + 128, 0);
            let arena_size = end + 128 - first_object(&image);
            set(&mut image, header::ARENA_SIZE, arena_size);
            let kinds = [(8, 16), (255, 41), (9, 17)];
            let mut put = |(kind, size)| (foreign::put(&mut image, kind, size), kind);
            let put = kinds
                .map(&mut put)
                .map(|(at, kind)| (at.expect("room"), kind));
            tried.names(&image, &put);
        }
    }
    tried.print("real files");
}
