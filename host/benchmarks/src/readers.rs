//! The plain reader beside the first one, on a file of the greatest length: what walking costs, with the
//! judgement of the image in both.
use crate::open::full;
use crate::timing::measure_ratio;
use reading::image::le64;
use reading::layout::header;
use std::hint::black_box;
use wrapper::raw;

/// How often each is called.
const ROUNDS: usize = 20;

/// The numbers that a lookup answers.
type Numbers = [u64; 2];

pub fn readers() {
    let image = &full(true, 4_095).image;
    let entries = le64(image, header::N_ENTRIES);
    let middle = raw::entry(image, entries / 2);
    let at_middle = raw::stamps(image, middle);
    println!("the plain reader and the first one in {entries} entries, with opening");
    println!(
        "{:<20}{:>12}{:>12}{:>8}",
        "", "plain ms", "first ms", "ratio"
    );
    let one = |entry: u64| [entry, 0];
    let part = |part: raw::Part| [part.at, part.len];
    row(
        "entry",
        || one(raw::plain::entry(black_box(image), entries / 2)),
        || one(raw::entry(black_box(image), entries / 2)),
    );
    row(
        "by_seqnum",
        || one(raw::plain::by_seqnum(black_box(image), at_middle.seqnum)),
        || one(raw::by_seqnum(black_box(image), at_middle.seqnum)),
    );
    row(
        "by_realtime",
        || {
            one(raw::plain::by_realtime(
                black_box(image),
                at_middle.realtime,
            ))
        },
        || one(raw::by_realtime(black_box(image), at_middle.realtime)),
    );
    let wet = b"STATE=wet";
    row(
        "by_payload",
        || one(raw::plain::by_payload(black_box(image), wet, 2_000)),
        || one(raw::by_payload(black_box(image), wet, 2_000)),
    );
    row(
        "item",
        || part(raw::plain::item(black_box(image), middle, 2)),
        || part(raw::item(black_box(image), middle, 2)),
    );
    row(
        "value, few of them",
        || part(raw::plain::value(black_box(image), b"STATE", 1)),
        || part(raw::value(black_box(image), b"STATE", 1)),
    );
}

/// Both answer the same, and something.
fn row(label: &str, mut plain: impl FnMut() -> Numbers, mut first: impl FnMut() -> Numbers) {
    assert_eq!(plain(), first());
    assert_ne!(plain(), [0; 2]);
    let ([plain, first], ratio) = measure_ratio(ROUNDS, plain, first);
    let (plain, first) = (plain / 1e6, first / 1e6);
    println!("{label:<20}{plain:>12.2}{first:>12.2}{ratio:>8.2}");
}
