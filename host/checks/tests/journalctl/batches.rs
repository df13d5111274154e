//! Batches: journalctl passes the file after each, and at every commit store of one it shows the
//! entries committed so far.
use checks::generator::compact::set_layout;
use checks::random::Random;
use reading::layout::Layout;
use reading::request::packed;
use wrapper::{stores_batch, Batch, NewEntry};

use crate::check::{check, exported, shown};
use crate::entries::{logged, CELLS};
use crate::file::{can_be_asked, File};
use crate::written::{carry_out, new_with, nth, MACHINE};

/// Where n_entries stands, which a commit store writes.
const N_ENTRIES: u64 = 152;

/// The stores of a batch of so many entries from the n-th on.
fn batched(random: &mut Random, image: &[u8], from: u64, many: u64) -> Vec<u8> {
    let mut batch = Batch::new();
    for n in from..from + many {
        let at = nth(n);
        let payloads = logged(random, n);
        let payloads: Vec<&[u8]> = payloads.iter().map(|it| &it[..]).collect();
        let entry = NewEntry {
            boot: &at.boot,
            seqnum: at.seqnum,
            realtime: at.realtime,
            monotonic: at.monotonic,
            fields: &packed(&payloads),
        };
        batch.add(entry).expect("short fields");
    }
    stores_batch(image, &MACHINE, batch.packed()).expect("the batch is taken")
}

/// A new file with room for all batches here, in each layout that is written.
fn files() -> Vec<Vec<u8>> {
    let layouts = [
        (Layout::Regular, 256),
        (Layout::Regular, 272),
        (Layout::Compact, 272),
    ];
    let mut files = Vec::new();
    for (layout, header_size) in layouts {
        for cells in CELLS {
            for keyed in [0, 1] {
                let tables = 32 + 16 * (cells.0 + cells.1) as usize;
                let length = header_size as usize + tables + 504 * 100;
                let mut image = new_with(header_size, length, cells, keyed);
                set_layout(&mut image, layout);
                files.push(image);
            }
        }
    }
    files
}

#[test]
fn after_each() {
    let random = &mut Random::new(700);
    for mut image in files() {
        let mut n = 0;
        for many in [1, 2, 30, 32] {
            let list = batched(random, &image, n + 1, many);
            carry_out(&mut image, &list);
            n += many;
            check(&image, n as usize);
        }
    }
}

#[test]
fn at_each_commit() {
    let random = &mut Random::new(701);
    for image in files().into_iter().step_by(5) {
        let list = batched(random, &image, 1, 12);
        let mut whole = image.clone();
        carry_out(&mut whole, &list);
        let all: Vec<_> = shown(&whole).into_iter().map(|(_, it)| it).collect();
        let mut committed = 0;
        for (store, k) in list.chunks(16).zip(1..) {
            if store[..8] != N_ENTRIES.to_le_bytes() {
                continue;
            }
            for (k, entries) in [(k - 1, committed), (k, committed + 1)] {
                let mut cut = image.clone();
                assert_eq!(wrapper::carry_out(&mut cut, &list, k), Ok(()));
                if can_be_asked(&cut) {
                    assert!(
                        exported(&File::new(&cut), &[]) == all[..entries],
                        "{k} stores"
                    );
                }
            }
            committed += 1;
        }
        assert_eq!(committed, 12);
    }
}
