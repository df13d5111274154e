//! Refusal 11.
use std::collections::{BTreeMap, BTreeSet};

use super::clause::*;
use super::fault::Fault;
use crate::committed::{committed, holders};
use crate::image::{name_of, Image, Object};
use crate::index::{cell_of, field_list, on_chain, Index};
use crate::layout::{data, entry, field, kind};
use crate::lookup3::hashlittle2;

/// 11, in the order of its words. The hash meant is always the one of the bytes.
pub fn eleven(image: &Image, found: &mut Vec<Fault>) {
    for object in &image.objects {
        let wrong = wrong_hashes(image, object).into_iter();
        found.extend(wrong.map(|hash| hash.clause.at(object.offset)));
    }
    payloads(image, found);
    let index = Index::of(image);
    cells(image, &index.data, DATA_WRONG_CELL, found);
    cells(image, &index.fields, FIELD_WRONG_CELL, found);
    equals(image, &index.data, EQUAL_PAYLOADS, found);
    equals(image, &index.fields, EQUAL_NAMES, found);
    lists(image, &index, found);
    for &offset in holders(image, &committed(image)).keys() {
        let object = image.object_at(offset).expect("refusal 8 passed");
        in_committed_entry(image, &index, &object, found);
    }
}

/// A hash that is not the one of its bytes.
pub struct WrongHash {
    pub clause: Clause,
    pub stored: u64,
    pub right: u64,
}

/// "a hash, item hash or xor_hash wrong": of any walked DATA, FIELD or ENTRY. "11 has no item hash" in
/// a compact file. By their offsets in the object: xor_hash stands before the items.
pub fn wrong_hashes(image: &Image, object: &Object) -> Vec<WrongHash> {
    let word = |at: u64| image.word(object.offset + at);
    let mut hashes = Vec::new();
    match object.kind {
        kind::DATA => {
            let right = image.hash(image.payload(object));
            hashes.push((DATA_HASH, word(data::HASH), right));
        }
        kind::FIELD => {
            let right = image.hash(image.payload(object));
            hashes.push((FIELD_HASH, word(field::HASH), right));
        }
        kind::ENTRY => {
            // "xor_hash is the XOR of hashlittle2 over the entry's payloads in every file."
            let mut xor_hash = 0;
            let mut of_items = Vec::new();
            for (offset, hash) in image.entry_items(object) {
                let payload = image.payload(&image.object_at(offset).expect("refusal 8 passed"));
                xor_hash ^= hashlittle2(payload);
                of_items.extend(hash.map(|stored| (ITEM_HASH, stored, image.hash(payload))));
            }
            hashes.push((XOR_HASH, word(entry::XOR_HASH), xor_hash));
            hashes.extend(of_items);
        }
        _ => {}
    }
    let wrong = hashes.into_iter().filter(|hash| hash.1 != hash.2);
    wrong
        .map(|(clause, stored, right)| WrongHash {
            clause,
            stored,
            right,
        })
        .collect()
}

/// "a payload without `=` or with nothing before it": of all walked DATA.
fn payloads(image: &Image, found: &mut Vec<Fault>) {
    for object in image.of_kind(kind::DATA) {
        match name_of(image.payload(&object)) {
            None => found.push(NO_EQUALS_SIGN.at(object.offset)),
            Some(name) if name.is_empty() => found.push(NOTHING_BEFORE.at(object.offset)),
            Some(_) => {}
        }
    }
}

/// "a chain object in a wrong cell", which is the fault "of the object met".
fn cells(image: &Image, chains: &[Vec<Object>], clause: Clause, found: &mut Vec<Fault>) {
    for (cell, chain) in chains.iter().enumerate() {
        for object in chain {
            if cell_of(chains, image.hash(image.payload(object))) != cell {
                found.push(clause.at(object.offset));
            }
        }
    }
}

/// "two equal payloads or names on the chains": both on chains, and not the same object. "the later is at
/// fault", by its offset, whichever is met first.
fn equals(image: &Image, chains: &[Vec<Object>], clause: Clause, found: &mut Vec<Fault>) {
    let by_offset: BTreeMap<u64, Object> = chains
        .iter()
        .flatten()
        .map(|object| (object.offset, *object))
        .collect();
    let mut earlier: BTreeSet<&[u8]> = BTreeSet::new();
    for (offset, object) in by_offset {
        if !earlier.insert(image.payload(&object)) {
            found.push(clause.at(offset));
        }
    }
}

/// "a FIELD's list holding another name": the list of every walked FIELD. The fault is that of the DATA
/// met in it.
fn lists(image: &Image, index: &Index, found: &mut Vec<Fault>) {
    let chained: BTreeSet<u64> = index
        .fields
        .iter()
        .flatten()
        .map(|object| object.offset)
        .collect();
    for object in image.of_kind(kind::FIELD) {
        let name = image.payload(&object);
        for data in field_list(image, &object) {
            if name_of(image.payload(&data)) != Some(name) {
                let on = chained.contains(&object.offset);
                let clause = if on {
                    OTHER_NAME_CHAINED
                } else {
                    OTHER_NAME_OFF
                };
                found.push(clause.at(data.offset));
            }
        }
    }
}

/// "a DATA in a committed entry missing from its cell or its FIELD's list, or no FIELD of its
/// name in its cell", which is the fault "of the DATA". Its FIELD is the one of its name on the chain of
/// the name's cell, the first if there are several.
fn in_committed_entry(image: &Image, index: &Index, object: &Object, found: &mut Vec<Fault>) {
    let payload = image.payload(object);
    let cell = cell_of(&index.data, image.hash(payload));
    if !index.data[cell].contains(object) {
        found.push(MISSING_FROM_CELL.at(object.offset));
    }
    let Some(name) = name_of(payload) else {
        return;
    };
    match on_chain(image, &index.fields, name) {
        None => found.push(NO_FIELD.at(object.offset)),
        Some(field) => {
            if !field_list(image, &field).contains(object) {
                found.push(MISSING_FROM_LIST.at(object.offset));
            }
        }
    }
}
