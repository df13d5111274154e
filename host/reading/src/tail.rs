//! The tail fields: of the header, "the array of the last committed item, the committed items in it, the
//! last entry; 0 when empty", and of each DATA in a compact file, "the array of the last counted item
//! and the counted items in it, 0 if there is none".
use super::committed::{committed, last_committed};
use super::image::{le32, Image, Object};
use super::layout::{array, data, header, kind, Layout};
use super::refusal::clause::*;
use super::room::{Places, Slot};

/// tail_entry_array_offset and tail_entry_array_n_entries of a chain of arrays.
#[derive(Clone, Copy, Debug, Default, PartialEq, Eq)]
pub struct TailArray {
    pub offset: u64,
    pub n_entries: u64,
}

impl TailArray {
    /// The word of the two numbers of 32 bits, which an image of at most 8,388,608 bytes never passes.
    pub fn word(&self) -> u64 {
        self.offset | self.n_entries << 32
    }

    /// Of the chain that starts at an offset, after so many items. It may have arrays after the one that
    /// holds the last of them, or none that holds one.
    fn of(image: &Image, first: u64, items: u64) -> TailArray {
        let mut left = items;
        for object in image.arrays(first) {
            let room = image.room(&object);
            if 0 < left && left <= room {
                return TailArray {
                    offset: object.offset,
                    n_entries: left,
                };
            }
            left -= room.min(left);
        }
        TailArray::default()
    }

    /// Of the same chain once an append has taken a slot of it.
    fn after(image: &Image, first: u64, slot: Slot) -> TailArray {
        match slot {
            Slot::Array { offset, .. } => TailArray {
                offset,
                n_entries: 1,
            },
            Slot::Spare(at) => {
                let arrays = image.arrays(first);
                let holds =
                    |object: &&Object| (object.offset..object.offset + object.size).contains(&at);
                let holder = arrays
                    .iter()
                    .find(holds)
                    .expect("a spare item of the chain");
                let before = (at - holder.offset - array::ITEMS) / image.layout.array_item();
                TailArray {
                    offset: holder.offset,
                    n_entries: before + 1,
                }
            }
            // The first entry of a DATA lies in no array.
            Slot::Inline => TailArray::default(),
        }
    }
}

/// The header's three late fields.
#[derive(Clone, Copy, Debug, Default, PartialEq, Eq)]
pub struct Tail {
    pub array: TailArray,
    pub entry_offset: u64,
}

impl Tail {
    /// The words at 256 and 264.
    pub fn words(&self) -> [(u64, u64); 2] {
        [
            (header::TAIL_ENTRY_ARRAY_OFFSET, self.array.word()),
            (header::TAIL_ENTRY_OFFSET, self.entry_offset),
        ]
    }
}

/// What the header's late fields are to say of an image.
pub fn tail(image: &Image) -> Tail {
    let committed = committed(image);
    let first = image.word(header::ENTRY_ARRAY_OFFSET);
    Tail {
        array: TailArray::of(image, first, committed.len() as u64),
        entry_offset: last_committed(&committed),
    }
}

/// What they are to say once an append's entry is committed.
pub fn tail_after(image: &Image, places: &Places) -> Tail {
    let first = image.word(header::ENTRY_ARRAY_OFFSET);
    Tail {
        array: TailArray::after(image, first, places.global),
        entry_offset: places.entry,
    }
}

/// What a DATA's tail fields are to say: entry_offset is counted first, and lies in no array.
pub fn data_tail(image: &Image, data_offset: u64) -> TailArray {
    let first = image.word(data_offset + data::ENTRY_ARRAY_OFFSET);
    let n_entries = image.word(data_offset + data::N_ENTRIES);
    TailArray::of(image, first, n_entries.saturating_sub(1))
}

/// "The DATA's tail word goes with group 5 where it changes": the words of the old DATA of an append.
pub fn data_tail_words(image: &Image, places: &Places) -> Vec<(u64, u64)> {
    if image.layout == Layout::Regular {
        return Vec::new();
    }
    let word = |&(offset, slot): &(u64, Slot)| {
        let first = image.word(offset + data::ENTRY_ARRAY_OFFSET);
        let after = TailArray::after(image, first, slot);
        (offset + data::TAIL_ENTRY_ARRAY_OFFSET, after.word())
    };
    let words = places.lists.iter().map(word);
    words
        .filter(|&(at, value)| image.word(at) != value)
        .collect()
}

/// 14: "those of the three fields that the header has", the first two in 264.
pub fn late_fields(image: &Image, found: &mut Vec<Clause>) {
    let tail = tail(image);
    let header_size = image.header_size();
    if header_size >= 264 {
        let clauses = [TAIL_ARRAY, TAIL_ARRAY_COUNT];
        let at = header::TAIL_ENTRY_ARRAY_OFFSET;
        differs(image, at, tail.array, clauses, found);
    }
    if header_size >= 272 && image.word(header::TAIL_ENTRY_OFFSET) != tail.entry_offset {
        found.push(TAIL_ENTRY);
    }
}

/// 14: "covers the two tail fields" of every walked DATA of a compact file.
pub fn data_tails(image: &Image, found: &mut Vec<Clause>) {
    if image.layout == Layout::Regular {
        return;
    }
    for object in image.of_kind(kind::DATA) {
        let tail = data_tail(image, object.offset);
        let clauses = [DATA_TAIL_ARRAY, DATA_TAIL_COUNT];
        let at = object.offset + data::TAIL_ENTRY_ARRAY_OFFSET;
        differs(image, at, tail, clauses, found);
    }
}

/// Whether one of the two numbers of 32 bits at a place is another one.
fn differs(image: &Image, at: u64, tail: TailArray, clauses: [Clause; 2], found: &mut Vec<Clause>) {
    for (at, value, clause) in [
        (at, tail.offset, clauses[0]),
        (at + 4, tail.n_entries, clauses[1]),
    ] {
        if le32(image.bytes, at) as u64 != value {
            found.push(clause);
        }
    }
}
