//! The archive's `journal_open` against the independent reading: the lowest of refusals 1 to 11
//! that applies, or 0.
use super::example::{drawn, example};
use super::frames::forms;
use checks::against::trial::{with, Tried};
use checks::generator::any::{any, cut, larger};
use checks::generator::frame::{frame, frame_in, set};
use checks::generator::worked::one_cell_each;
use checks::generator::{good, grown, mutation};
use checks::random::Random;
use measured::framed;
use reading::layout::{header, kind, Layout, MOST_BYTES};
use reading::new_file::{new_file, NewFile};
use wrapper::raw;

/// The frame alone gives the same answer up to 7.
fn both(image: &[u8]) -> u64 {
    let answer = raw::open(image);
    assert_eq!(framed(image), if answer <= 7 { answer } else { 0 });
    answer
}

pub fn tried() -> Tried {
    Tried::new(both, 11)
}

#[test]
fn good_images() {
    let mut tried = tried();
    for seed in 0..3_000 {
        let random = &mut Random::new(seed);
        assert_eq!(tried.number(&good::good(random).image), 0);
        assert_eq!(tried.number(&good::tidy(random).image), 0);
    }
    for seed in 0..300 {
        let random = &mut Random::new(seed);
        assert_eq!(tried.number(&larger(random)), 0);
        assert_eq!(tried.number(&grown::grown(random, 12)), 0);
    }
    tried.print("good images");
}

/// "An image opens if opening answers 0": so does each that is cut in the middle of an append.
#[test]
fn appends_cut_in_the_middle() {
    let mut tried = tried();
    for seed in 0..1_500 {
        assert_eq!(tried.number(&cut(&mut Random::new(seed))), 0);
    }
    tried.print("appends cut in the middle");
}

#[test]
fn every_clause() {
    tried().every_clause(|number| match number {
        2 => 2,
        8.. => 150,
        _ => 30,
    });
}

#[test]
fn untargeted_mutations() {
    let mut tried = tried();
    for seed in 0..12_000 {
        tried.image(&mutation::untargeted(&mut Random::new(seed + 7_000_000)));
    }
    for seed in 0..8_000 {
        tried.image(&any(&mut Random::new(seed + 9_000_000)));
    }
    tried.print("untargeted mutations");
    assert!((0..12).all(|number| number == 2 || tried.answers[number] > 50));
}

/// Inputs of every length up to 400, and the frames that have no more than objects of zeros.
#[test]
fn short_inputs() {
    let mut tried = tried();
    let images: Vec<Vec<u8>> = forms()
        .map(|(layout, header_size)| {
            let mut draft = example();
            (draft.layout, draft.header_size) = (layout, header_size);
            drawn(&draft).image
        })
        .collect();
    for length in 0..=400 {
        tried.image(&vec![0; length]);
        tried.image(&Random::new(length as u64).bytes(length));
        for image in &images {
            tried.image(&image[..length]);
        }
    }
    for kind in 1..=9 {
        for size in [16, 28, 32, 64, 65, 68, 73, 80, 96] {
            for layout in Layout::BOTH {
                if !matches!(kind, 4 | 5) {
                    tried.image(&frame_in(layout, 256, &[(kind, size)]));
                }
            }
        }
    }
    assert_eq!(tried.number(&frame(&[(kind::TAG, 64), (8, 16)])), 0);
    tried.print("short inputs");
}

/// 8,388,608 bytes: empty, with the most cells, and with the tail object at the very end.
#[test]
fn the_longest_image() {
    let mut tried = tried();
    let mut image = vec![0; MOST_BYTES as usize];
    let header_size = 272;
    for (data_cells, keyed) in [(1, 0), (65_536, 1)] {
        let new = NewFile {
            data_cells,
            header_size,
            ..one_cell_each(keyed)
        };
        assert_eq!(new_file(&mut image, &new), 0);
        assert_eq!(tried.number(&image), 0);
    }
    let end = header_size + 16 + 16 * 65_536 + 32;
    let last = MOST_BYTES - 32;
    image[end as usize] = 9;
    set(&mut image, end + 8, last - end);
    image[last as usize] = kind::ENTRY_ARRAY;
    set(&mut image, last + 8, 32);
    set(&mut image, header::TAIL_OBJECT_OFFSET, last);
    set(&mut image, header::ENTRY_ARRAY_OFFSET, last);
    assert_eq!(tried.number(&image), 0);
    assert_eq!(tried.number(&with(&image, header::N_ENTRIES, 1)), 9);
    assert_eq!(tried.number(&with(&image, last + 16, last)), 8);
    assert_eq!(tried.number(&with(&image, last + 16, MOST_BYTES)), 8);
    image.push(0);
    assert_eq!(tried.number(&image), 2);
    tried.print("the longest image");
}

/// Files of journald, with untargeted mutations of those that open.
#[test]
fn real_files() {
    tried().real_files(|tried, image| {
        for seed in 0..150 {
            tried.image(&mutation::mutated(&mut Random::new(seed), image));
        }
    });
}
