//! Times the archive against plain Rust: `cargo run --offline --release -p benchmarks`.
//! Sections are `hashes`, `frame`, `open`, `why`, `compact`, `append`, `tray`, `lookups`, `readers`, `listing`,
//! `merged`, `exchange` and `hostile`; with their names only those are run.
//!
//! A ratio of 1.0 or more means that the archive is at least as fast as plain Rust.
mod append;
mod asked;
mod batch;
mod builder;
mod compact;
mod exchange;
mod frame;
mod hostile;
mod listing;
mod lookups;
mod many;
mod merged;
mod objects;
mod open;
mod plain;
mod process;
mod readers;
mod timing;
mod tray;
mod why;

use checks::random::Random;
use reading::lookup3::hashlittle2;
use reading::siphash::siphash24;
use std::hint::black_box;
use timing::{heading, measure, row};
use wrapper::raw;

fn main() {
    let asked: Vec<String> = std::env::args().skip(1).collect();
    let sections: [(&str, fn()); 13] = [
        ("hashes", hashes),
        ("frame", frame::frame),
        ("open", open::open),
        ("why", why::why),
        ("compact", compact::compact),
        ("append", append::append),
        ("tray", tray::tray),
        ("lookups", lookups::lookups),
        ("readers", readers::readers),
        ("listing", listing::listing),
        ("merged", merged::merged),
        ("exchange", exchange::exchange),
        ("hostile", hostile::hostile),
    ];
    for (name, section) in sections {
        if asked.is_empty() || asked.iter().any(|other| other == name) {
            section();
        }
    }
}

fn hashes() {
    const SIZES: [(&str, usize); 4] = [
        ("16 bytes", 16),
        ("64 bytes", 64),
        ("4 KiB", 4 << 10),
        ("1 MiB", 1 << 20),
    ];
    let mut random = Random::new(1);
    let key = random.array();
    let buffer = random.bytes(1 << 20);

    // The archive's functions can't be inlined, nor shaped after their one caller. A pointer that
    // the compiler can't see through keeps it from doing so to the plain ones: each side pays for
    // one call.
    let plain_lookup3: fn(&[u8]) -> u64 = black_box(hashlittle2);
    let plain_siphash24: fn(&[u8; 16], &[u8]) -> u64 = black_box(siphash24);

    heading("lookup3");
    for (label, size) in SIZES {
        let bytes = &buffer[..size];
        let times = measure(
            || raw::hash_lookup3(black_box(bytes)),
            || plain_lookup3(black_box(bytes)),
        );
        row(label, size, &times);
    }

    heading("siphash24");
    for (label, size) in SIZES {
        let bytes = &buffer[..size];
        let times = measure(
            || raw::hash_siphash24(black_box(&key), black_box(bytes)),
            || plain_siphash24(black_box(&key), black_box(bytes)),
        );
        row(label, size, &times);
    }
}
