//! Each lookup on a file of the greatest length: one call with the opening in it, and the lookup alone,
//! against plain Rust.
use crate::asked::{archive, plain, same_answers, Answer, Asked};
use crate::many::{words, Many};
use crate::open::full;
use crate::plain::lookup::by_payload;
use crate::timing::{heading, least_long, lookups_heading, lookups_row, measure_long, row, Times};
use reading::ask::Question;
use reading::image::le64;
use reading::layout::header;
use std::hint::black_box;
use wrapper::raw;

/// How often what is measured of lookups without opening is called.
const ROUNDS: usize = 20;

pub fn lookups() {
    same_answers();
    let image = &full(true, 4_095).image;
    let entries = le64(image, header::N_ENTRIES);
    let middle = raw::entry(image, entries / 2);
    let at_middle = raw::stamps(image, middle);
    let wet = b"STATE=wet".to_vec();
    let holding = (0..)
        .take_while(|&place| by_payload(image, &wet, place) != 0)
        .count() as u64;
    let asked = [
        ("entry", Asked::Other(Question::Entry(entries / 2))),
        (
            "by_seqnum",
            Asked::Other(Question::FirstSeqnum(at_middle.seqnum)),
        ),
        (
            "by_realtime",
            Asked::Other(Question::FirstRealtime(at_middle.realtime)),
        ),
        (
            "by_payload",
            Asked::Other(Question::Holding(wet, holding / 2)),
        ),
        ("item", Asked::Other(Question::Item(middle, 2))),
        (
            "value",
            Asked::Other(Question::Payload(b"MESSAGE".to_vec(), entries / 2)),
        ),
        ("stamps", Asked::Stamps(middle)),
    ];
    println!("lookups in {entries} entries, at the middle; STATE=wet is in {holding} of them");
    heading("with opening");
    let whole: fn(&[u8], &Asked) -> Answer = black_box(plain);
    for (label, asked) in &asked {
        assert_eq!(whole(image, asked), archive(image, asked));
        assert_ne!(whole(image, asked), [0; 7]);
        let times = measure_long(
            60,
            || archive(black_box(image), asked),
            || whole(black_box(image), asked),
        );
        row(label, image.len(), &times);
    }
    alone(image, &asked);
}

/// The lookups without opening: by one call of the archive with so many that opening is a small
/// part of it, less the same call without any, against as many by plain Rust.
fn alone(image: &[u8], asked: &[(&str, Asked)]) {
    let plain: fn(&Many, &[u8], &[u8]) -> u64 = black_box(Many::plain);
    lookups_heading("without opening");
    for (label, asked) in asked {
        let (many, argument) = Many::of(asked);
        let count = match many {
            Many::Value(_) => 2_000,
            Many::ByRealtime => 20_000,
            Many::ByPayload(_) => 60_000,
            _ => 5_000_000,
        };
        let arguments = words(&vec![argument; count]);
        let sum = plain(&many, image, &arguments);
        assert_eq!(many.archive(image, &arguments), sum);
        assert_eq!(many.archive(image, &[]), 0);
        let archive = |arguments: &[u8]| {
            black_box(many.archive(black_box(image), black_box(arguments)));
        };
        let mut all = || archive(&arguments);
        let mut none = || archive(&[]);
        let mut plain = || {
            black_box(plain(&many, black_box(image), black_box(&arguments)));
        };
        let [all, none, plain] = least_long(ROUNDS, [&mut all, &mut none, &mut plain]);
        let times = Times {
            archive: (all - none) / count as f64,
            plain: plain / count as f64,
        };
        lookups_row(label, count, &times);
    }
}
