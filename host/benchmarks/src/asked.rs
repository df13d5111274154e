//! Lookups as questions, to the archive and to plain Rust.
use crate::many::{words, Many};
use crate::plain::lookup;
use crate::plain::open::open;
use crate::plain::reads;
use checks::generator::any::any;
use checks::generator::questions::{one_of_each, questions};
use checks::random::Random;
use reading::ask::Question;
use reading::lookup::open as read;
use std::collections::BTreeMap;
use wrapper::raw::{self, Part, Stamps};

/// An answer of any lookup as numbers.
pub type Answer = [u64; 7];

pub enum Asked {
    Stamps(u64),
    Other(Question),
}

fn number(number: u64) -> Answer {
    [number, 0, 0, 0, 0, 0, 0]
}

fn part(part: Part) -> Answer {
    [part.at, part.len, 0, 0, 0, 0, 0]
}

fn stamps(it: Stamps) -> Answer {
    let Stamps {
        refusal,
        seqnum,
        realtime,
        monotonic,
        boot_low,
        boot_high,
        items,
    } = it;
    [
        refusal, seqnum, realtime, monotonic, boot_low, boot_high, items,
    ]
}

pub fn archive(image: &[u8], asked: &Asked) -> Answer {
    match asked {
        Asked::Stamps(entry) => stamps(raw::stamps(image, *entry)),
        Asked::Other(question) => match question {
            Question::Entry(place) => number(raw::entry(image, *place)),
            Question::FirstSeqnum(seqnum) => number(raw::by_seqnum(image, *seqnum)),
            Question::FirstRealtime(realtime) => number(raw::by_realtime(image, *realtime)),
            Question::Holding(payload, place) => number(raw::by_payload(image, payload, *place)),
            Question::Item(entry, place) => part(raw::item(image, *entry, *place)),
            Question::Payload(name, place) => part(raw::value(image, name, *place)),
        },
    }
}

/// Plain Rust's answer of an image that opens.
fn opened(image: &[u8], asked: &Asked) -> Answer {
    match asked {
        Asked::Stamps(entry) => stamps(lookup::stamps(image, *entry)),
        Asked::Other(question) => match question {
            Question::Entry(place) => number(lookup::entry(image, *place)),
            Question::FirstSeqnum(seqnum) => number(lookup::by_seqnum(image, *seqnum)),
            Question::FirstRealtime(realtime) => number(lookup::by_realtime(image, *realtime)),
            Question::Holding(payload, place) => number(lookup::by_payload(image, payload, *place)),
            Question::Item(entry, place) => part(lookup::item(image, *entry, *place)),
            Question::Payload(name, place) => part(lookup::value(image, name, *place)),
        },
    }
}

/// The same of every image.
pub fn plain(image: &[u8], asked: &Asked) -> Answer {
    match (open(image), asked) {
        (0, _) => opened(image, asked),
        (_, Asked::Other(Question::Item(..) | Question::Payload(..))) => part(Part::default()),
        (refusal, _) => number(refusal),
    }
}

/// Only what answers the same can be compared: each lookup by itself, and all of a kind together.
pub fn same_answers() {
    for seed in 0..150 {
        let image = any(&mut Random::new(seed));
        if !reads(&image) {
            continue;
        }
        let mut all = match read(&image) {
            Ok(journal) => questions(&journal),
            Err(_) => one_of_each(),
        };
        let offsets: Vec<u64> = all
            .iter()
            .filter_map(|question| match question {
                Question::Item(offset, 0) => Some(*offset),
                _ => None,
            })
            .collect();
        let asked = all.drain(..).map(Asked::Other);
        let mut together: BTreeMap<Many, Vec<u64>> = BTreeMap::new();
        for asked in asked.chain(offsets.into_iter().map(Asked::Stamps)) {
            assert_eq!(plain(&image, &asked), archive(&image, &asked));
            let (many, argument) = Many::of(&asked);
            together.entry(many).or_default().push(argument);
        }
        for (many, arguments) in together {
            let arguments = words(&arguments);
            let sum = match open(&image) {
                0 => many.plain(&image, &arguments),
                refusal => refusal,
            };
            assert_eq!(many.archive(&image, &arguments), sum, "{many:?}");
        }
    }
}
