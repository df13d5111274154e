//! The stream of two images that open: places in both chains of arrays, and a record for each entry
//! that is shown.
use super::arrays::{committed, Arrays};
use super::bytes::u64_at;
use wrapper::raw::MergedPage;

/// A place among the committed entries of an image.
struct Place<'a> {
    image: &'a [u8],
    arrays: Arrays<'a>,
    items: &'a [u8],
    number: u64,
}

impl<'a> Place<'a> {
    fn new(image: &'a [u8], number: u64) -> Place<'a> {
        let mut place = Place {
            image,
            arrays: committed(image),
            items: &[],
            number,
        };
        let mut left = number;
        for items in place.arrays.by_ref() {
            let n = items.len() as u64 / 8;
            if left < n {
                place.items = &items[8 * left as usize..];
                break;
            }
            left -= n;
        }
        place
    }

    /// The entry there.
    #[inline(always)]
    fn entry(&self) -> Option<usize> {
        (!self.items.is_empty()).then(|| u64_at(self.items, 0) as usize)
    }

    #[inline(always)]
    fn go_on(&mut self) {
        self.number += 1;
        self.items = &self.items[8..];
        if self.items.is_empty() {
            self.items = self.arrays.next().unwrap_or_default();
        }
    }
}

/// What is shown of two next entries.
enum Shown {
    First,
    Second,
    Met,
}

/// `same_id`: whether the two files have one seqnum id.
#[inline(always)]
fn shown(first: &[u8], one: usize, second: &[u8], other: usize, same_id: bool) -> Shown {
    let numbers = |at: usize| (u64_at(first, one + at), u64_at(second, other + at));
    let same_boot = first[one + 40..one + 56] == second[other + 40..other + 56];
    let compared = [
        (same_id, numbers(16)),
        (same_boot, numbers(32)),
        (true, numbers(24)),
        (true, numbers(56)),
    ];
    for (compared, (one, other)) in compared {
        if compared && one != other {
            return if one < other {
                Shown::First
            } else {
                Shown::Second
            };
        }
    }
    match same_id && same_boot {
        true => Shown::Met,
        false => Shown::First,
    }
}

/// Writes the record of an entry to the front of the page; its length where it does not fit.
#[inline(always)]
fn write(page: &mut [u8], file: u64, image: &[u8], entry: usize) -> Result<usize, usize> {
    let items = (u64_at(image, entry + 8) as usize - 64) / 16;
    let length = 64 + 16 * items;
    let Some(record) = page.get_mut(..length) else {
        return Err(length);
    };
    let (head, parts) = record.split_at_mut(64);
    head[..8].copy_from_slice(&file.to_le_bytes());
    head[8..16].copy_from_slice(&(entry as u64).to_le_bytes());
    // Sequence number, both times and the boot stand in an ENTRY as in a record.
    head[16..56].copy_from_slice(&image[entry + 16..entry + 56]);
    head[56..].copy_from_slice(&(items as u64).to_le_bytes());
    let held = image[entry + 64..].chunks_exact(16);
    for (part, item) in parts.chunks_exact_mut(16).zip(held) {
        let data = u64_at(item, 0);
        let size = u64_at(image, data as usize + 8);
        part[..8].copy_from_slice(&(data + 64).to_le_bytes());
        part[8..].copy_from_slice(&(size - 64).to_le_bytes());
    }
    Ok(length)
}

pub fn page_merged(first: &[u8], second: &[u8], at: [u64; 2], page: &mut [u8]) -> MergedPage {
    let same_id = first[72..88] == second[72..88];
    let (mut one, mut other) = (Place::new(first, at[0]), Place::new(second, at[1]));
    let (mut count, mut next, mut end) = (0, 0, 0);
    loop {
        let (shown, entry) = match (one.entry(), other.entry()) {
            (None, None) => break,
            (Some(entry), None) => (Shown::First, entry),
            (None, Some(entry)) => (Shown::Second, entry),
            (Some(a), Some(b)) => match shown(one.image, a, other.image, b, same_id) {
                Shown::Second => (Shown::Second, b),
                of_first => (of_first, a),
            },
        };
        let (file, image) = match shown {
            Shown::Second => (2, second),
            _ => (1, first),
        };
        match write(&mut page[end..], file, image, entry) {
            Ok(length) => end += length,
            Err(length) => {
                next = length as u64;
                break;
            }
        }
        count += 1;
        if !matches!(shown, Shown::Second) {
            one.go_on();
        }
        if !matches!(shown, Shown::First) {
            other.go_on();
        }
    }
    MergedPage {
        refusal: 0,
        file: 0,
        count,
        next,
        next_first: one.number,
        next_second: other.number,
    }
}
