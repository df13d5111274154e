//! Opening a compact file against a regular one of the same entries, both written by the archive.
use crate::open::{facts, payloads};
use crate::timing::measure_long;
use checks::random::Random;
use std::hint::black_box;
use wrapper::raw::{self, Request};

const ENTRIES: u64 = 3_000;
/// Where the incompatible flags stand, and the one of compact files.
const FLAGS: usize = 12;
const COMPACT: u8 = 16;

pub fn compact() {
    println!("open, {ENTRIES} entries   compact ns   regular ns   ns an entry, each");
    for (label, keyed) in [("lookup3", 0), ("siphash24", 1)] {
        let [compact, regular] = [true, false].map(|compact| written(keyed, compact));
        let times = measure_long(
            60,
            || raw::open(black_box(&compact)),
            || raw::open(black_box(&regular)),
        );
        let each = [times.archive, times.plain].map(|ns| ns / ENTRIES as f64);
        println!(
            "{label:<20} {:>12.0} {:>12.0}   {:.0} and {:.0}",
            times.archive, times.plain, each[0], each[1]
        );
    }
}

/// A file of 2 MiB with some entries, its flag set before the first of them.
fn written(keyed: u64, compact: bool) -> Vec<u8> {
    let mut image = vec![0; 2 << 20];
    assert_eq!(raw::new(&mut image, &[2; 64], 4_095, 64, keyed, 256), 0);
    if compact {
        image[FLAGS] |= COMPACT;
    }
    let random = &mut Random::new(9);
    let mut stores = vec![0; 1 << 20];
    for n in 0..ENTRIES {
        let mut fields = Vec::new();
        for payload in payloads(random, n) {
            fields.extend((payload.len() as u32).to_le_bytes());
            fields.extend(payload);
        }
        let [seqnum, realtime, monotonic] = facts(n);
        let request = Request {
            machine: &[2; 16],
            boot: &[5; 16],
            seqnum,
            realtime,
            monotonic,
            fields: &fields,
        };
        let answer = raw::plan(&image, &request, &mut stores);
        assert_eq!(answer % 256, 0);
        assert_eq!(raw::carry_out(&mut image, &stores, answer / 256), 0);
    }
    image
}
