//! Where a host syncs: `Append` compares the points of every plan; here are plans by their shapes, and
//! buffers of every length.
use std::collections::BTreeMap;

use checks::against::cuts::cuts;
use checks::against::orders::orders;
use checks::against::plan::Append;
use checks::against::syncs::put;
use checks::generator::dice::some_of;
use checks::generator::foreign;
use checks::generator::frame::set;
use checks::generator::worked::{first, request, second, LAST};
use checks::generator::{appends, grown, requests};
use checks::random::Random;
use reading::carry::Store;
use reading::image::le64;
use reading::layout::{header, Layout};
use reading::plan::{groups, plan};
use reading::request::{packed, Request};

use crate::made::{made_in, Tried};

#[test]
fn worked_examples() {
    let mut tried = Tried::default();
    // In a header of 272 group 6 has two stores more; in a compact file the objects are shorter, and the
    // second append has a tail word in group 5.
    let (regular, compact) = (Layout::Regular, Layout::Compact);
    for (layout, header_size, of_first, of_second) in [
        (
            regular,
            256,
            [53, 58, 63, 70, 71, 72],
            [18, 23, 25, 31, 32, 33],
        ),
        (
            regular,
            272,
            [53, 58, 63, 72, 73, 74],
            [18, 23, 25, 33, 34, 35],
        ),
        (
            compact,
            256,
            [50, 55, 60, 67, 68, 69],
            [15, 20, 22, 29, 30, 31],
        ),
        (
            compact,
            272,
            [50, 55, 60, 69, 70, 71],
            [15, 20, 22, 31, 32, 33],
        ),
    ] {
        for keyed in [false, true] {
            let mut image = made_in(layout, header_size, 4096, (1, 1), keyed);
            for (fields, seqnum, points) in
                [(first(), LAST, of_first), (second(), LAST + 1, of_second)]
            {
                let ask = request(&fields, seqnum, 0, 0);
                assert_eq!(Append::new(&image, ask).points, points);
                tried.carried(&mut image, ask);
            }
        }
    }
}

/// Every length of the buffer up to two words too many, at every alignment.
#[test]
fn buffers_of_every_length() {
    let mut tried = 0;
    for seed in 0..40 {
        let case = appends::good(&mut Random::new(seed + 20_000));
        let append = Append::new(&case.image, case.asked.request());
        let Some(need) = append.need() else {
            continue;
        };
        let (_, list) = append
            .put(16 * need, seed)
            .unwrap_or_else(|difference| panic!("{difference}"));
        for length in 0..=8 * append.points.len() + 16 {
            tried += 1;
            put(&list, &append.points, length, tried)
                .unwrap_or_else(|difference| panic!("{difference}"));
        }
    }
    println!("buffers of every length: {tried}");
    assert!(tried > 1_000);
}

/// First entries and later ones, with old DATA and without, in keyed files and others, up to many links.
#[test]
fn by_shape() {
    let mut tried = Tried::default();
    let mut shapes = BTreeMap::new();
    let mut most = 0;
    for seed in 0..800 {
        let random = &mut Random::new(seed + 21_000);
        let image = grown::grown(random, 12);
        let asked = requests::fitting(random, &image);
        let Ok(groups) = groups(&image, &asked.request()) else {
            continue;
        };
        assert_eq!(tried.append(&image, asked.request()), 0);
        let first = le64(&image, header::N_ENTRIES) == 0;
        let flags = image[header::INCOMPATIBLE_FLAGS as usize];
        let header_size = le64(&image, header::HEADER_SIZE);
        let shape = (header_size, flags, first, groups[4].is_empty());
        let facts = [5, 7][usize::from(first)] + [0, 2][usize::from(header_size == 272)];
        assert_eq!(groups[5].len(), facts);
        *shapes.entry(shape).or_insert(0) += 1;
        most = most.max(groups[3].len());
    }
    println!(
        "(header, incompatible flags, a first entry, no old DATA): {shapes:?}, up to {most} links"
    );
    // A first entry has no old DATA here.
    assert!(shapes.len() == 24 && shapes.values().all(|&n| n > 2) && most > 15);
}

/// The image with these words stored before the append.
fn with(image: &[u8], stores: &[Store]) -> Vec<u8> {
    let mut image = image.to_vec();
    for store in stores {
        set(&mut image, store.offset, store.value);
    }
    image
}

/// An append, if it is taken: the points, the lookups at every cut, and any stores between two syncs.
/// Whether group 4 is empty.
fn cut_and_synced(
    tried: &mut Tried,
    image: &[u8],
    ask: Request,
    random: &mut Random,
) -> Option<bool> {
    let empty = groups(image, &ask).ok()?[3].is_empty();
    assert_eq!(tried.append(image, ask), 0);
    let points = Append::new(image, ask).points;
    assert_eq!(points.len(), if empty { 5 } else { 6 });
    for difference in [
        cuts(image, ask, 97, points[0] as u64).err(),
        orders(image, ask, (8, 97), random).err(),
    ] {
        assert_eq!(difference, None);
    }
    Some(empty)
}

/// Group 4 stores a word only if its value changes. Spare items may hold any value, so also the one to
/// come: some of them, or all, and then the group is empty and has no sync.
#[test]
fn group_4_there_already() {
    let mut tried = Tried::default();
    let (mut empty, mut some) = (0, 0);
    for seed in 0..8 {
        let random = &mut Random::new(seed + 22_000);
        let header_size = [256, 272][seed as usize / 4];
        let layout = Layout::BOTH[seed as usize / 2 % 2];
        let mut image = made_in(layout, header_size, 8192, (1 + seed, 2), seed % 2 == 0);
        // One DATA, several, and all of them old from the second entry on.
        let fields = match seed % 3 {
            0 => packed(&[b"LOT=1"]),
            1 => packed(&[b"LOT=1", b"LOT=2", b"STATE=dry"]),
            _ => packed(&[b"A=", b"B=1", b"C=2", b"D=3", b"E=4"]),
        };
        for n in 1..=10 {
            let ask = request(&fields, (1 << 63) - 7 + n, n, n);
            if seed % 4 == 3 {
                foreign::put(&mut image, 8 + n as u8, 16 + n);
            }
            let links = groups(&image, &ask).expect("taken").swap_remove(3);
            let chosen = some_of(random, &links);
            for (there, all) in [(&links, true), (&chosen, false)] {
                let image = with(&image, there);
                match cut_and_synced(&mut tried, &image, ask, random) {
                    Some(is_empty) => {
                        assert!(is_empty || !all, "all of it is there");
                        empty += u64::from(is_empty);
                        some += u64::from(!is_empty && !there.is_empty());
                    }
                    // A link to an object that does not stand yet.
                    None => assert_eq!(plan(&image, &ask).expect_err("refused")[0].number, 8),
                }
            }
            tried.carried(&mut image, ask);
        }
    }
    println!("group 4 there already: {empty} times all of it, {some} times some");
    assert!(empty > 30 && some > 20, "{empty} and {some}");
}
