//! The new objects of an append and the links to them, before they are put into stores.
use std::collections::BTreeSet;

use super::image::{le64, Image};
use super::index::{cell_of, Index};
use super::layout::{array, data, entry, field, kind, table, Layout};
use super::lookup3::hashlittle2;
use super::request::Request;
use super::room::{Places, Slot};

/// The image with the new objects and the links to them.
pub struct After<'a> {
    image: &'a Image<'a>,
    bytes: Vec<u8>,
    start: u64,
    /// Old words that links and array items go to.
    pub old: BTreeSet<u64>,
}

impl After<'_> {
    pub fn word(&self, at: u64) -> u64 {
        le64(&self.bytes, at)
    }

    fn set(&mut self, at: u64, value: u64) {
        self.put(at, &value.to_le_bytes());
    }

    /// An item of an ENTRY or an ENTRY_ARRAY. "A store still covers eight bytes and keeps a neighbouring
    /// item or padding": in a compact file only half of the word is another one.
    fn set_item(&mut self, at: u64, offset: u64) {
        let count = self.image.layout.array_item() as usize;
        self.put(at, &offset.to_le_bytes()[..count]);
    }

    /// Bytes of one word.
    fn put(&mut self, at: u64, bytes: &[u8]) {
        if at < self.start {
            self.old.insert(at / 8 * 8);
        }
        self.bytes[at as usize..at as usize + bytes.len()].copy_from_slice(bytes);
    }

    /// Type and size of a new object.
    fn object(&mut self, at: u64, kind: u8, size: u64) {
        self.bytes[at as usize] = kind;
        self.set(at + 8, size);
    }

    /// "go last in their cell"
    fn chain(&mut self, offset: u64, cell: u64) {
        let tail = self.word(cell + 8);
        if tail == 0 {
            self.set(cell, offset);
        } else {
            self.set(tail + data::NEXT_HASH_OFFSET, offset);
        }
        self.set(cell + 8, offset);
    }

    /// The entry goes into a list.
    fn list(&mut self, slot: Slot, entry: u64) {
        match slot {
            Slot::Spare(at) => self.set_item(at, entry),
            Slot::Array {
                offset,
                items,
                link,
            } => {
                let size = self.image.layout.array_size(items);
                self.object(offset, kind::ENTRY_ARRAY, size);
                self.set_item(offset + array::ITEMS, entry);
                self.set(link, offset);
            }
            Slot::Inline => unreachable!("not in an array"),
        }
    }
}

/// New objects and links, in the order in which they stand.
pub fn draw<'a>(image: &'a Image<'a>, request: &Request, places: &Places) -> After<'a> {
    let mut after = After {
        image,
        bytes: image.bytes.to_vec(),
        start: places.start,
        old: BTreeSet::new(),
    };
    // "Unused bytes are 0.": a new DATA's tail fields too.
    after.bytes[places.start as usize..places.end as usize].fill(0);
    let index = Index::of(image);
    let cell = |table: u8, chains: &[Vec<_>], bytes: &[u8]| {
        image.of_kind(table)[0].offset
            + table::CELLS
            + 16 * cell_of(chains, image.hash(bytes)) as u64
    };
    for one in places.payloads.iter().filter(|one| one.is_new) {
        let at = one.data;
        let size = image.layout.data_size(one.payload.len());
        after.object(at, kind::DATA, size);
        after.set(at + data::HASH, image.hash(one.payload));
        // "New DATA hold the entry as their first (so does an old one of count 0)"
        after.set(at + data::ENTRY_OFFSET, places.entry);
        after.set(at + data::N_ENTRIES, 1);
        let start = (at + image.layout.payload()) as usize;
        after.bytes[start..start + one.payload.len()].copy_from_slice(one.payload);
        after.chain(at, cell(kind::DATA_HASH_TABLE, &index.data, one.payload));
        if one.field_is_new {
            after.object(one.field, kind::FIELD, 40 + one.name.len() as u64);
            after.set(one.field + field::HASH, image.hash(one.name));
            let start = (one.field + field::NAME) as usize;
            after.bytes[start..start + one.name.len()].copy_from_slice(one.name);
            after.chain(
                one.field,
                cell(kind::FIELD_HASH_TABLE, &index.fields, one.name),
            );
        }
        // "first in their FIELD's list"
        let first = after.word(one.field + field::HEAD_DATA_OFFSET);
        after.set(at + data::NEXT_FIELD_OFFSET, first);
        after.set(one.field + field::HEAD_DATA_OFFSET, at);
    }
    draw_entry(&mut after, request, places);
    after.list(places.global, places.entry);
    for &(offset, slot) in &places.lists {
        match slot {
            Slot::Inline => after.set(offset + data::ENTRY_OFFSET, places.entry),
            _ => after.list(slot, places.entry),
        }
    }
    after
}

/// "the ENTRY, items rising"
fn draw_entry(after: &mut After, request: &Request, places: &Places) {
    let at = places.entry;
    let mut items: Vec<(u64, u64)> = places
        .payloads
        .iter()
        .map(|one| (one.data, after.image.hash(one.payload)))
        .collect();
    items.sort();
    let layout = after.image.layout;
    after.object(at, kind::ENTRY, layout.entry_size(items.len()));
    after.set(at + entry::SEQNUM, request.seqnum);
    after.set(at + entry::REALTIME, request.realtime);
    after.set(at + entry::MONOTONIC, request.monotonic);
    after.set(at + entry::BOOT_ID, le64(&request.boot_id, 0));
    after.set(at + entry::BOOT_ID + 8, le64(&request.boot_id, 8));
    let xor_hash = places
        .payloads
        .iter()
        .fold(0, |xor, one| xor ^ hashlittle2(one.payload));
    after.set(at + entry::XOR_HASH, xor_hash);
    for (i, (offset, hash)) in items.into_iter().enumerate() {
        let at = at + entry::ITEMS + layout.entry_item() * i as u64;
        after.set_item(at, offset);
        if layout == Layout::Regular {
            after.set(at + 8, hash);
        }
    }
}
