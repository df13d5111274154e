//! Why a file is refused, beside opening it: a file of the greatest length, whole and damaged near its
//! end, so that the first fault is also the last thing met.
use crate::open::full;
use crate::timing::measure_ratio;
use checks::generator::frame::set;
use reading::image::{le64, Image};
use reading::layout::{data, entry, header, kind};
use std::hint::black_box;
use wrapper::raw;

/// A word of a DATA that lies in its payload, which starts at 64.
const VALUE: u64 = 72;

/// How often each is called.
const ROUNDS: usize = 15;

pub fn why() {
    let whole = full(true, 4_095).image;
    let entries = le64(&whole, header::N_ENTRIES);
    let walked = Image::walked(&whole);
    let last = |kind: u8| walked.of_kind(kind).last().expect("a full file").offset;
    let [payload, tail] = [kind::DATA, kind::ENTRY].map(last);
    let object = le64(&whole, header::TAIL_OBJECT_OFFSET);
    let [seqnum, value] = [tail + entry::SEQNUM, payload + VALUE];
    // A word that is damaged, and what it then holds.
    let damages = [
        (
            6,
            "flags of the tail object",
            object,
            le64(&whole, object) ^ 0x100,
        ),
        (8, "an item of the last entry", tail + entry::ITEMS, 0),
        (9, "its sequence number", seqnum, le64(&whole, seqnum) - 1),
        (10, "a count near the end", payload + data::N_ENTRIES, 0),
        (11, "a payload near the end", value, le64(&whole, value) ^ 1),
        (11, "the last xor_hash", tail + entry::XOR_HASH, 0),
        (
            11,
            "a list cut off there",
            payload + data::NEXT_FIELD_OFFSET,
            0,
        ),
    ];
    println!("why a file of {entries} entries is refused, and opening it whole");
    println!("{:<32}{:>12}{:>12}{:>8}", "", "why ms", "open ms", "ratio");
    row(0, "nothing: it opens", &whole, &whole);
    for (number, label, at, word) in damages {
        let mut damaged = whole.clone();
        set(&mut damaged, at, word);
        row(number, label, &damaged, &whole);
    }
}

fn row(number: u64, label: &str, damaged: &[u8], whole: &[u8]) {
    assert_eq!(raw::why(damaged).refusal, number, "{label}");
    let ([why, open], ratio) = measure_ratio(
        ROUNDS,
        || raw::why(black_box(damaged)).place,
        || raw::open(black_box(whole)),
    );
    let (why, open) = (why / 1e6, open / 1e6);
    println!("{number:>2}: {label:<28}{why:>12.2}{open:>12.2}{ratio:>8.2}");
}
