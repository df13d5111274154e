//! Every cut of appends that the archive works out and carries out: each image opens, and every
//! lookup answers as before the append, or from the commit store on as after it.
use checks::against::cuts::{cuts, Cut};
use checks::against::orders::orders;
use checks::against::plan::{number, Append};
use checks::generator::worked::{first, request, second, LAST};
use checks::generator::{appends, grown, requests};
use checks::random::Random;
use reading::layout::{header, Layout};
use reading::request::Request;
use wrapper::carry_out;

use crate::made::made_in;

#[derive(Default)]
struct Tried {
    appends: u64,
    cuts: u64,
    answers: u64,
}

impl Tried {
    /// Cuts an append everywhere and asks one question in `step` at each cut; the image after it,
    /// none where it is not taken.
    fn cut(&mut self, image: &[u8], request: Request, step: usize) -> Option<Vec<u8>> {
        let tried = self.appends;
        let Cut {
            after,
            cuts,
            answers,
        } = cuts(image, request, step, tried)
            .unwrap_or_else(|difference| panic!("{difference}"))
            .ok()?;
        self.appends += 1;
        self.cuts += cuts;
        self.answers += answers;
        Some(after)
    }

    fn print(&self, what: &str) {
        let Tried {
            appends,
            cuts,
            answers,
        } = self;
        println!("{what}: {appends} appends, {cuts} cuts, {answers} answers");
    }
}

/// The worked examples, with every question at every cut.
#[test]
fn worked_examples() {
    let mut tried = Tried::default();
    for (layout, header_size, keyed) in [
        (Layout::Regular, 256, false),
        (Layout::Regular, 256, true),
        (Layout::Regular, 272, false),
        (Layout::Regular, 272, true),
        (Layout::Compact, 256, true),
        (Layout::Compact, 272, false),
    ] {
        let mut image = made_in(layout, header_size, 1024, (1, 1), keyed);
        let (first, second) = (first(), second());
        for ask in [
            request(&first, LAST, 1700000000000000, 50),
            request(&second, LAST + 1, 1700000000000001, 60),
        ] {
            image = tried.cut(&image, ask, 1).expect("taken");
        }
    }
    tried.print("worked examples");
    assert_eq!(
        tried.cuts,
        2 * (73 + 34) + 2 * (75 + 36) + (70 + 32) + (72 + 34)
    );
}

/// What a host meets after a cut: 13; and with state 0, 14 from the first store of group 3 up to the
/// commit store.
#[test]
fn another_append_after_a_cut() {
    for (layout, header_size, count) in [
        (Layout::Regular, 256, 72),
        (Layout::Regular, 272, 74),
        (Layout::Compact, 272, 71),
    ] {
        let image = made_in(layout, header_size, 1024, (1, 1), true);
        let fields = first();
        let ask = request(&fields, 5, 0, 0);
        let (_, list) = put(&image, ask, count);
        let objects = Append::new(&image, ask).points[0];
        for k in 0..=count {
            let mut image = image.clone();
            assert_eq!(carry_out(&mut image, &list, k as u64), Ok(()));
            let next = request(&fields, 6, 0, 0);
            let number = if k == 0 || k == count { 0 } else { 13 };
            assert_eq!(put(&image, next, count).0, number, "a cut at {k}");
            image[header::STATE as usize] = 0;
            let number = if k <= objects || k + 1 >= count {
                0
            } else {
                14
            };
            assert_eq!(put(&image, next, count).0, number, "a cut at {k}, state 0");
        }
    }
}

/// The answer, and the list.
fn put(image: &[u8], request: Request, stores: usize) -> (u64, Vec<u8>) {
    let (planned, list) = Append::new(image, request)
        .put(16 * stores, stores as u64)
        .unwrap_or_else(|difference| panic!("{difference}"));
    (number(&planned), list)
}

/// Appends of every kind that is taken; each question is asked at some of the cuts.
#[test]
fn appends_cut_everywhere() {
    let mut tried = Tried::default();
    for seed in 0..150 {
        let case = appends::good(&mut Random::new(seed));
        tried.cut(&case.image, case.asked.request(), 41);
    }
    tried.print("appends cut everywhere");
    assert!(tried.appends > 80);
}

/// Appends one after another.
#[test]
fn appends_one_after_another() {
    let mut tried = Tried::default();
    for seed in 0..12 {
        let random = &mut Random::new(seed + 77_000);
        let mut image = grown::grown(random, 1);
        for _ in 0..6 {
            let asked = requests::fitting(random, &image);
            if let Some(after) = tried.cut(&image, asked.request(), 29) {
                image = after;
            }
        }
    }
    tried.print("appends one after another");
    assert!(tried.appends > 20);
}

/// Crash states between two syncs: a disk may hold any of the stores, in any order.
#[test]
fn any_stores_between_syncs() {
    let (mut appends, mut images) = (0, 0);
    for seed in 0..150 {
        let random = &mut Random::new(seed + 30_000);
        let case = appends::good(random);
        match orders(&case.image, case.asked.request(), (8, 60), random) {
            Ok(Ok(count)) => (appends, images) = (appends + 1, images + count),
            Ok(Err(_)) => {}
            Err(difference) => panic!("{difference}"),
        }
    }
    println!("any stores between syncs: {appends} appends, {images} images");
    assert!(appends > 80);
}

/// The worked examples, with every choice of the stores between two syncs behind the objects.
#[test]
fn every_choice_between_syncs() {
    let random = &mut Random::new(31_000);
    let mut images = 0;
    for (layout, header_size) in [
        (Layout::Regular, 256),
        (Layout::Regular, 272),
        (Layout::Compact, 272),
    ] {
        let mut image = made_in(layout, header_size, 1024, (1, 1), header_size == 272);
        let (first, second) = (first(), second());
        for ask in [request(&first, 1, 0, 0), request(&second, 2, 0, 0)] {
            let tried = orders(&image, ask, (520, 5), random);
            images += tried
                .unwrap_or_else(|difference| panic!("{difference}"))
                .expect("taken");
            image = cuts(&image, ask, 50, 0)
                .expect("as before")
                .expect("taken")
                .after;
        }
    }
    println!("every choice between syncs: {images} images");
    // 520 of the objects, then five counters, links, counts and facts, commit store, state.
    let first = |facts: u64| 520 + 32 + 32 + facts + 2 + 2;
    let second = |facts: u64| 520 + 32 + 4 + facts + 2 + 2;
    let regular = first(128) + second(64) + first(512) + second(256);
    // The tail word is one more of the second append's.
    assert_eq!(images, regular + first(512) + second(512));
}
