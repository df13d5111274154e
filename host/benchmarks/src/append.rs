//! Working out an append to a file of the greatest length, against opening it, and a batch; and a new file
//! and carrying out, against plain Rust.
use crate::batch::batches;
use crate::open::{facts, full_but, payloads, Full};
use crate::timing::{heading, measure_long, measure_ratio, row};
use checks::random::Random;
use reading::layout::MOST_BYTES;
use reading::new_file::{new_file, NewFile};
use reading::request::packed;
use std::hint::black_box;
use wrapper::raw;
use wrapper::{plan as planned, Planned, Request};

pub fn append() {
    println!(
        "{:<44} {:>8} {:>14} {:>14} {:>10}",
        "plan", "stores", "plan ns", "open ns", "openings"
    );
    let kinds = [
        (false, 4_095),
        (false, 65_536),
        (true, 4_095),
        (true, 65_536),
    ];
    let full = kinds.map(|(keyed, data_cells)| full_but(keyed, data_cells, 65_536));
    // An entry such as the file has, and one of as many new payloads as an entry may have.
    let as_logged = payloads(&mut Random::new(9), 1_000_000);
    let new = (0..64).map(|n| format!("FIELD{}=a new value {n}", n % 9).into_bytes());
    let new: Vec<Vec<u8>> = new.collect();
    for full in &full {
        plan("as logged", full, &as_logged);
        plan("64 new payloads", full, &new);
    }
    batches(&full);
    new_files();
    carried();
}

/// One plan against one opening: how many openings it takes.
fn plan(what: &str, full: &Full, payloads: &[Vec<u8>]) {
    let fields = packed(&payloads.iter().map(|it| &it[..]).collect::<Vec<_>>());
    let [seqnum, realtime, monotonic] = facts(1_000_000);
    let request = Request {
        machine: &[2; 16],
        boot: &[3; 16],
        seqnum,
        realtime,
        monotonic,
        fields: &fields,
    };
    let image = &full.image;
    let mut list = vec![0; 16 * 4096];
    let Planned::Stores { count } = planned(image, &request, &mut list) else {
        panic!("the append is taken");
    };
    let ([plan, open], openings) = measure_ratio(
        60,
        || raw::plan(black_box(image), black_box(&request), &mut list),
        || raw::open(black_box(image)),
    );
    println!(
        "{:<44} {count:>8} {plan:>14.1} {open:>14.1} {openings:>10.2}",
        format!("{}, {what}", full.label)
    );
}

fn new_files() {
    let plain: fn(&mut [u8], &NewFile) -> u64 = black_box(new_file);
    heading("new file");
    for (label, data_cells, field_cells) in [("1 cell each", 1, 1), ("all cells", 65_536, 1_024)] {
        let new = NewFile {
            data_cells,
            field_cells,
            keyed: 1,
            header_size: 256,
            file_id: [1; 16],
            machine_id: [2; 16],
            boot_id: [3; 16],
            seqnum_id: [4; 16],
        };
        let ids = [[1; 16], [2; 16], [3; 16], [4; 16]].concat();
        let ids = ids[..].try_into().expect("64 bytes");
        let mut one = vec![7; MOST_BYTES as usize];
        let mut other = one.clone();
        let times = measure_long(
            60,
            || raw::new(black_box(&mut one), ids, data_cells, field_cells, 1, 256),
            || plain(black_box(&mut other), black_box(&new)),
        );
        assert!(one == other);
        row(label, one.len(), &times);
    }
}

/// Carrying out in plain Rust: all stores are looked at, and then written.
fn plain_carry_out(image: &mut [u8], list: &[u8], k: u64) -> u64 {
    let whole = list.chunks_exact(16);
    if k > whole.len() as u64 {
        return 21;
    }
    let stores = whole.take(k as usize).map(|store| {
        let (offset, value) = store.split_at(8);
        (
            u64::from_le_bytes(offset.try_into().expect("8 bytes")),
            value,
        )
    });
    let length = image.len() as u64;
    for (offset, _) in stores.clone() {
        if offset % 8 != 0 || offset > length || length - offset < 8 {
            return 21;
        }
    }
    for (offset, value) in stores {
        image[offset as usize..offset as usize + 8].copy_from_slice(value);
    }
    0
}

/// A store for each word of an image of the greatest length, and as many anywhere in it.
fn carried() {
    let words = MOST_BYTES / 8;
    let random = &mut Random::new(5);
    let rising: Vec<u64> = (0..words).map(|n| 8 * n).collect();
    let anywhere: Vec<u64> = (0..words)
        .map(|_| 8 * random.below(words as usize) as u64)
        .collect();
    let plain: fn(&mut [u8], &[u8], u64) -> u64 = black_box(plain_carry_out);
    heading("carry out");
    for (label, offsets) in [("rising", rising), ("anywhere", anywhere)] {
        let numbers = offsets.iter().flat_map(|&offset| [offset, random.word()]);
        let list: Vec<u8> = numbers.flat_map(u64::to_le_bytes).collect();
        let mut one = vec![7; MOST_BYTES as usize];
        let mut other = one.clone();
        let times = measure_long(
            30,
            || raw::carry_out(black_box(&mut one), black_box(&list), words),
            || plain(black_box(&mut other), black_box(&list), words),
        );
        assert!(one == other);
        row(label, list.len(), &times);
    }
}
