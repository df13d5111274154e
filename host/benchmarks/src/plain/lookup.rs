//! The lookups: arrays are passed as a whole, sequence numbers and offsets found by binary search,
//! wall times asked in order, since they may fall, payloads and names found through their cells. Each
//! of these wants an image that opens.
use super::arrays::{binary_search, committed, last_committed, Arrays};
use super::bytes::{u32_at, u64_at};
use reading::lookup3::hashlittle2;
use reading::siphash::siphash24;
use wrapper::raw::{Part, Stamps};

pub fn entry(image: &[u8], place: u64) -> u64 {
    if place >= u64_at(image, 152) {
        return 0;
    }
    let mut left = place as usize;
    for items in committed(image) {
        if left < items.len() / 8 {
            return u64_at(items, 8 * left);
        }
        left -= items.len() / 8;
    }
    0
}

pub fn by_seqnum(image: &[u8], seqnum: u64) -> u64 {
    binary_search(image, |entry| u64_at(image, entry as usize + 16) >= seqnum)
}

pub fn by_realtime(image: &[u8], realtime: u64) -> u64 {
    for items in committed(image) {
        for item in items.chunks_exact(8) {
            let entry = u64_at(item, 0);
            if u64_at(image, entry as usize + 24) >= realtime {
                return entry;
            }
        }
    }
    0
}

/// The object with these bytes on the chains of the table whose offset the header has at a place.
fn find(image: &[u8], table: usize, body: usize, bytes: &[u8]) -> usize {
    let hash = match u32_at(image, 12) & 4 {
        0 => hashlittle2(bytes),
        _ => siphash24(image[24..40].try_into().expect("16 bytes"), bytes),
    };
    let cells = u64_at(image, table + 8) / 16;
    let cell = u64_at(image, table) + 16 * (hash % cells);
    let mut at = u64_at(image, cell as usize) as usize;
    while at != 0 {
        if u64_at(image, at + 16) == hash {
            let size = u64_at(image, at + 8) as usize;
            if &image[at + body..at + size] == bytes {
                return at;
            }
        }
        at = u64_at(image, at + 24) as usize;
    }
    0
}

/// The entry at a place in a DATA's list, 0 if none.
fn listed(image: &[u8], data: usize, last: u64, place: u64) -> u64 {
    let count = u64_at(image, data + 56);
    if count == 0 {
        return 0;
    }
    let first = u64_at(image, data + 40);
    let mut left = place;
    if first <= last {
        if place == 0 {
            return first;
        }
        left -= 1;
    }
    let arrays = Arrays {
        image,
        array: u64_at(image, data + 48) as usize,
        left: count - 1,
    };
    for items in arrays {
        for item in items.chunks_exact(8) {
            let entry = u64_at(item, 0);
            if entry <= last {
                if left == 0 {
                    return entry;
                }
                left -= 1;
            }
        }
    }
    0
}

pub fn by_payload(image: &[u8], payload: &[u8], place: u64) -> u64 {
    match find(image, 104, 64, payload) {
        0 => 0,
        data => listed(image, data, last_committed(image), place),
    }
}

fn payload(image: &[u8], data: usize) -> Part {
    Part {
        at: data as u64 + 64,
        len: u64_at(image, data + 8) - 64,
    }
}

/// The size of a committed entry; none at any other offset.
fn committed_size(image: &[u8], entry: u64) -> Option<u64> {
    let found = binary_search(image, |other| other >= entry);
    (found == entry && found != 0).then(|| u64_at(image, entry as usize + 8))
}

pub fn item(image: &[u8], entry: u64, place: u64) -> Part {
    match committed_size(image, entry) {
        Some(size) if place < (size - 64) / 16 => {
            let data = u64_at(image, entry as usize + 64 + 16 * place as usize);
            payload(image, data as usize)
        }
        _ => Part::default(),
    }
}

pub fn value(image: &[u8], name: &[u8], place: u64) -> Part {
    let field = find(image, 120, 40, name);
    if field == 0 {
        return Part::default();
    }
    let last = last_committed(image);
    let mut left = place;
    let mut data = u64_at(image, field + 32) as usize;
    while data != 0 {
        if listed(image, data, last, 0) != 0 {
            if left == 0 {
                return payload(image, data);
            }
            left -= 1;
        }
        data = u64_at(image, data + 32) as usize;
    }
    Part::default()
}

pub fn stamps(image: &[u8], entry: u64) -> Stamps {
    let Some(size) = committed_size(image, entry) else {
        return Stamps::default();
    };
    let word = |at: usize| u64_at(image, entry as usize + at);
    Stamps {
        refusal: 0,
        seqnum: word(16),
        realtime: word(24),
        monotonic: word(32),
        boot_low: word(40),
        boot_high: word(48),
        items: (size - 64) / 16,
    }
}
