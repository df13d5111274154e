//! Files that are made to take long: the time of opening them, how it grows with their length, and that
//! of `why`, which goes through all of a file that opens.
use crate::builder::Builder;
use crate::objects::Objects;
use crate::timing::time_long;
use checks::generator::collide::hashed_to_0;
use checks::generator::frame::set;
use reading::layout::{header, kind};
use wrapper::raw;

pub fn hostile() {
    let kinds: [(&str, fn(u64) -> Vec<u8>); 9] = [
        ("DATA in one cell", |it| {
            one_cell(it, kind::DATA, 64, header::DATA_HASH_TABLE_OFFSET)
        }),
        ("FIELDs in one cell", |it| {
            one_cell(it, kind::FIELD, 40, header::FIELD_HASH_TABLE_OFFSET)
        }),
        ("DATA of one hash", one_hash),
        ("one array chain for all DATA", one_chain),
        ("one FIELD list for all FIELDs", |it| one_list(it, b"A")),
        ("the same, names of 51 bytes", |it| {
            one_list(it, &[b'A'; 51])
        }),
        ("one large payload in all entries", one_payload),
        ("payloads of one cache slot in turn", one_place),
        ("one entry with all DATA", one_entry),
    ];
    // The longest files take minutes, so they are for whoever asks: `bench hostile full`.
    let mut lengths = vec![1 << 20, 2 << 20];
    if std::env::args().any(|argument| argument == "full") {
        lengths = vec![8 << 20];
    }
    println!(
        "{:<36} {:>8} {:>12} {:>8} {:>12}",
        "hostile", "MiB", "ms", "growth", "why ms"
    );
    for (label, make) in kinds {
        let mut before: Option<f64> = None;
        for &length in &lengths {
            let image = make(length);
            let mut least = f64::INFINITY;
            let rounds = if length > 2 << 20 { 1 } else { 3 };
            for _ in 0..rounds {
                let mut open = || assert_eq!(raw::open(&image), 0, "{label}");
                least = least.min(time_long(&mut open, 1) / 1e6);
            }
            let growth = before.map_or(String::new(), |before| format!("{:.1}", least / before));
            let mut why = || assert_eq!(raw::why(&image).refusal, 0, "{label}");
            let why = time_long(&mut why, 1) / 1e6;
            println!(
                "{label:<36} {:>8} {least:>12.1} {growth:>8} {why:>12.1}",
                length >> 20
            );
            before = Some(least);
        }
    }
}

/// A file of one cell each.
fn file(length: u64, keyed: bool) -> Objects {
    Objects::new(length as usize, keyed, 1, 1)
}

/// A payload of 8 bytes, another for each number.
fn small(n: u64) -> Vec<u8> {
    let mut payload = b"A=".to_vec();
    payload.extend(&n.to_le_bytes()[..6]);
    payload
}

/// Objects with 8 bytes of payload or name, all on the chain of the one cell: where the filter can't
/// tell that a hash is new, the object is compared with all before it.
fn one_cell(length: u64, kind: u8, body: u64, table: u64) -> Vec<u8> {
    let mut it = file(length, false);
    let mut n = 0;
    while it.room() >= body + 8 {
        let at = it.hashed(kind, body, &small(n));
        it.chain(table, at);
        n += 1;
    }
    it.image
}

/// The same with DATA of different payloads and one hash, so that the filter never helps.
fn one_hash(length: u64) -> Vec<u8> {
    let mut it = file(length, false);
    let mut n = 0;
    while it.room() >= 80 {
        let payload = hashed_to_0(n);
        if payload.iter().position(|&byte| byte == b'=') > Some(0) {
            let at = it.hashed(kind::DATA, 64, &payload);
            it.chain(header::DATA_HASH_TABLE_OFFSET, at);
        }
        n += 1;
    }
    it.image
}

/// Half of the file is an array, the other half DATA that count all of its items. No entry is
/// committed, so that each item lies above the last.
fn one_chain(length: u64) -> Vec<u8> {
    let mut it = file(length, false);
    let held = it.hashed(kind::DATA, 64, b"A=");
    let entry = it.entry(&[held], [1, 1, 1]);
    let items = length / 16;
    let array = it.object(kind::ENTRY_ARRAY, 24 + 8 * items);
    it.image[array as usize + 24..(array + 24 + 8 * items) as usize].fill(255);
    let mut n = 0;
    while it.room() >= 72 {
        let at = it.hashed(kind::DATA, 64, &small(n));
        set(&mut it.image, at + 40, entry);
        set(&mut it.image, at + 48, array);
        set(&mut it.image, at + 56, items + 1);
        n += 1;
    }
    it.image
}

/// Half of the file is one list of DATA, the other half FIELDs off their chain that all have it.
fn one_list(length: u64, name: &[u8]) -> Vec<u8> {
    let mut it = file(length, false);
    let (mut n, mut head) = (0, 0);
    while it.room() >= length / 2 {
        let payload = [&name[1..], &small(n)[..]].concat();
        let at = it.hashed(kind::DATA, 64, &payload);
        set(&mut it.image, at + 32, head);
        head = at;
        n += 1;
    }
    while it.room() >= 40 + name.len() as u64 + 7 {
        let at = it.hashed(kind::FIELD, 40, name);
        set(&mut it.image, at + 32, head);
    }
    it.image
}

/// Half of a keyed file is one payload, the other half entries that hold it.
fn one_payload(length: u64) -> Vec<u8> {
    let mut it = file(length, true);
    let mut payload = b"A=".to_vec();
    payload.resize(length as usize / 2, b'x');
    let data = it.hashed(kind::DATA, 64, &payload);
    let first = it.entry(&[data], [1, 1, 1]) as usize;
    copy_to_the_end(&mut it, first, 80);
    it.image
}

/// Copies an object as often as there is room.
fn copy_to_the_end(it: &mut Objects, first: usize, size: usize) {
    while it.room() >= size as u64 {
        let at = it.object(it.image[first], size as u64) as usize;
        it.image.copy_within(first..first + size, at);
    }
}

/// Entries of a keyed file that hold two DATA of just below 1,024 bytes, 524,288 bytes apart: in the
/// cache of hashes each takes the other's slot.
fn one_place(length: u64) -> Vec<u8> {
    let mut it = file(length, true);
    let mut payload = b"A=".to_vec();
    payload.resize(1023 - 64, b'x');
    let one = it.hashed(kind::DATA, 64, &payload);
    it.object(9, 524_288 - 1024);
    payload[5] = b'y';
    let other = it.hashed(kind::DATA, 64, &payload);
    let first = it.entry(&[one, other], [1, 1, 1]) as usize;
    copy_to_the_end(&mut it, first, 96);
    it.image
}

/// One committed entry that holds all DATA of the file.
fn one_entry(length: u64) -> Vec<u8> {
    let mut it = Builder::new(length as usize, false, 65_536.min(length / 64), 1);
    let count = (it.objects.room() - 64 - 24 - 32 - 64) / (72 + 16) - 1;
    let payloads: Vec<Vec<u8>> = (0..count).map(small).collect();
    // The check of the room is generous, so the entry is put together here.
    let mut items = Vec::new();
    for payload in &payloads {
        items.push(it.held(payload));
    }
    let entry = it.objects.entry(&items, [1, 1, 1]);
    it.commit(&payloads, entry);
    it.objects.image
}
