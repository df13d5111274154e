//! Appends to files with foreign objects: they are taken as to any other file, the new objects stand
//! behind the tail object, whatever that is, and at every cut the foreign objects are the same.
use checks::against::cuts::cuts;
use checks::generator::dice::{shuffle, some_of};
use checks::generator::foreign::{any, put};
use checks::generator::frame::set;
use checks::generator::worked::{first, request, second};
use checks::generator::{appends, grown, requests};
use checks::random::Random;
use reading::image::{le64, Image, Object};
use reading::layout::{header, kind::FIRST_FOREIGN};
use reading::request::Request;
use wrapper::{carry_out, sync_points, Foreign};

use crate::made::{list, made, Tried};

fn named(image: &[u8]) -> Vec<Foreign> {
    let objects = wrapper::foreign_objects(image).expect("it opens");
    objects.collect()
}

/// The image with these stores carried out by the archive.
fn carried(image: &[u8], stores: &[(u64, u64)]) -> Vec<u8> {
    let mut image = image.to_vec();
    let count = stores.len() as u64;
    assert_eq!(carry_out(&mut image, &list(stores), count), Ok(()));
    image
}

/// Works an append out by the archive, and carries out the first k stores, for every k, and some of
/// those between two syncs in any order: what is named then is what was named before, place by place.
/// The image after it, and the number of cuts.
fn cut_everywhere(tried: &mut Tried, image: &[u8], request: Request) -> (Vec<u8>, usize) {
    let before = named(image);
    let mut after = image.to_vec();
    let stores = tried.carried(&mut after, request);
    for k in 0..=stores.len() {
        let cut = carried(image, &stores[..k]);
        assert_eq!(named(&cut), before, "a cut at {k} of {}", stores.len());
    }
    let random = &mut Random::new(stores.len() as u64);
    let mut start = 0;
    for end in sync_points(&list(&stores)) {
        for _ in 0..3 {
            let mut some = some_of(random, &stores[start..end]);
            shuffle(random, &mut some);
            let cut = carried(image, &[&stores[..start], &some].concat());
            assert_eq!(named(&cut), before, "some stores from {start} to {end}");
        }
        start = end;
    }
    (after, stores.len() + 1)
}

/// A foreign object of each size as the tail object: the first new object stands behind it.
#[test]
fn behind_the_tail_object() {
    let mut tried = Tried::default();
    let mut count = 0;
    let (first, second) = (first(), second());
    for size in 16..=33 {
        for keyed in [false, true] {
            let mut image = made(2048, (1, 1), keyed);
            let put = |image: &mut Vec<u8>, kind| put(image, kind, size).expect("room");
            let at = put(&mut image, 8);
            let ask = request(&first, 5, 0, 0);
            let (after, cuts) = cut_everywhere(&mut tried, &image, ask);
            let new = Object::read(&image, at).next() as u64;
            assert_eq!(new, at + size.next_multiple_of(8));
            assert_eq!(after[new as usize], reading::layout::kind::DATA);
            image = after;
            put(&mut image, 255);
            put(&mut image, 9);
            let ask = request(&second, 6, 0, 0);
            let (after, more) = cut_everywhere(&mut tried, &image, ask);
            let kinds: Vec<u8> = named(&after).iter().map(|it| it.kind).collect();
            assert_eq!(kinds, [8, 255, 9]);
            count += cuts + more;
        }
    }
    println!("behind the tail object: {count} cuts");
}

/// The free bytes behind the tail object look like foreign objects, and new objects overwrite them.
#[test]
fn over_what_looks_like_them() {
    let mut tried = Tried::default();
    let fields = first();
    for step in [16, 24, 40] {
        let mut image = made(1024, (1, 1), true);
        let free = put(&mut image, 77, 19).expect("room") + 24;
        for at in (free..1024 - step).step_by(step as usize) {
            image[at as usize] = 9;
            set(&mut image, at + 8, step);
        }
        assert_eq!(named(&image).len(), 1);
        cut_everywhere(&mut tried, &image, request(&fields, 5, 0, 0));
    }
}

/// 14: n_objects counts them, and no other counter does.
#[test]
fn counted_among_all_objects() {
    let mut tried = Tried::default();
    let fields = first();
    let mut image = made(1024, (1, 1), true);
    put(&mut image, 8, 64).expect("room");
    let ask = request(&fields, 5, 0, 0);
    assert_eq!(tried.append(&image, ask), 0);
    for (at, value) in [
        (header::N_OBJECTS, 2),
        (header::N_TAGS, 1),
        (header::N_DATA, 1),
    ] {
        let mut other = image.clone();
        assert_ne!(le64(&other, at), value);
        set(&mut other, at, value);
        assert_eq!(tried.append(&other, ask), 14);
        assert_eq!(named(&other), named(&image));
    }
}

/// Appends of every kind to files that have some: every question at some cuts, what is named at all.
#[test]
fn of_every_kind() {
    let mut tried = Tried::default();
    let (mut taken, mut count) = (0, 0);
    for seed in 0..200 {
        let random = &mut Random::new(seed + 55_000);
        let case = appends::good(random);
        let walked = Image::walked(&case.image).objects;
        if walked.iter().all(|it| it.kind < FIRST_FOREIGN) {
            continue;
        }
        let ask = case.asked.request();
        let cut = cuts(&case.image, ask, 37, seed);
        if cut
            .unwrap_or_else(|difference| panic!("{difference}"))
            .is_err()
        {
            continue;
        }
        count += cut_everywhere(&mut tried, &case.image, ask).1;
        taken += 1;
    }
    println!("of every kind: {taken} appends, {count} cuts");
    assert!(taken > 50);
}

/// One append after another, with foreign objects between them.
#[test]
fn one_after_another() {
    let mut tried = Tried::default();
    let (mut taken, mut most) = (0, 0);
    for seed in 0..12 {
        let random = &mut Random::new(seed + 66_000);
        let mut image = grown::grown(random, 1);
        for _ in 0..6 {
            let (kind, size) = any(random);
            put(&mut image, kind, size);
            let asked = requests::fitting(random, &image);
            if tried.append(&image, asked.request()) == 0 {
                image = cut_everywhere(&mut tried, &image, asked.request()).0;
                taken += 1;
            }
        }
        most = most.max(named(&image).len());
    }
    println!("one after another: {taken} appends, up to {most} foreign objects");
    assert!(taken > 20 && most > 5);
}
