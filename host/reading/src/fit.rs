//! Refusals 12 to 15, 17 and 25: whether an append may be made to an image.
use std::collections::BTreeMap;

use super::committed::{committed, counted, last_committed};
use super::image::{id, le32, name_of, Image, Object};
use super::index::{cell_of, field_list, on_chain, Index};
use super::layout::{array, data, entry, header, kind, TAIL_ENTRY_BOOT_ID};
use super::refusal::clause::*;
use super::request::Request;
use super::tail::{data_tails, late_fields};

/// 12: any compatible bit set, but "no longer for bit 1 with 272"
pub fn twelve(image: &Image, found: &mut Vec<Clause>) {
    let compatible_flags = le32(image.bytes, header::COMPATIBLE_FLAGS);
    if compatible_flags & !TAIL_ENTRY_BOOT_ID != 0 {
        found.push(COMPATIBLE_BIT);
    }
    if compatible_flags & TAIL_ENTRY_BOOT_ID != 0 && image.header_size() != 272 {
        found.push(BOOT_BIT_WITHOUT_272);
    }
}

/// 25: "for an append to 264, straight after 12"
pub fn twenty_five(image: &Image, found: &mut Vec<Clause>) {
    if image.header_size() == 264 {
        found.push(HEADER_OF_264);
    }
}

/// 13: "state not 0 (offline)", the byte at 16 alone.
pub fn thirteen(image: &Image, found: &mut Vec<Clause>) {
    if image.bytes[header::STATE as usize] != 0 {
        found.push(NOT_OFFLINE);
    }
}

/// 14, in the order of its words.
pub fn fourteen(image: &Image, found: &mut Vec<Clause>) {
    let index = Index::of(image);
    counters(image, found);
    facts(image, found);
    late_fields(image, found);
    data_tails(image, found);
    cell_tails(
        image,
        kind::DATA_HASH_TABLE,
        &index.data,
        DATA_CELL_TAIL,
        found,
    );
    cell_tails(
        image,
        kind::FIELD_HASH_TABLE,
        &index.fields,
        FIELD_CELL_TAIL,
        found,
    );
    // "a DATA or FIELD off its chain"
    for (kind, chains, clause) in [
        (kind::DATA, &index.data, DATA_OFF_CHAIN),
        (kind::FIELD, &index.fields, FIELD_OFF_CHAIN),
    ] {
        for object in image.of_kind(kind) {
            let cell = cell_of(chains, image.hash(image.payload(&object)));
            if !chains[cell].contains(&object) {
                found.push(clause);
            }
        }
    }
    let last = last_committed(&committed(image));
    for object in image.of_kind(kind::DATA) {
        // "a DATA off its FIELD's list or with no FIELD of its name"
        let name = name_of(image.payload(&object)).expect("refusal 11 passed");
        match on_chain(image, &index.fields, name) {
            None => found.push(DATA_WITHOUT_FIELD),
            Some(field) if !field_list(image, &field).contains(&object) => {
                found.push(DATA_OFF_LIST)
            }
            Some(_) => {}
        }
        // "a counted item above the last committed": the inline one or one of the chain.
        let counted = counted(image, object.offset).expect("refusal 10 passed");
        if counted.iter().any(|&offset| offset > last) {
            found.push(COUNTED_ABOVE);
        }
    }
    arrays(image, found);
}

/// "a header counter (n_entries counts every ENTRY)"
fn counters(image: &Image, found: &mut Vec<Clause>) {
    let count = |kind: u8| image.of_kind(kind).len() as u64;
    for (at, value, clause) in [
        (
            header::N_OBJECTS,
            image.objects.len() as u64,
            COUNTER_OBJECTS,
        ),
        (header::N_ENTRIES, count(kind::ENTRY), COUNTER_ENTRIES),
        (header::N_DATA, count(kind::DATA), COUNTER_DATA),
        (header::N_FIELDS, count(kind::FIELD), COUNTER_FIELDS),
        (header::N_TAGS, count(kind::TAG), COUNTER_TAGS),
        (
            header::N_ENTRY_ARRAYS,
            count(kind::ENTRY_ARRAY),
            COUNTER_ARRAYS,
        ),
    ] {
        if image.word(at) != value {
            found.push(clause);
        }
    }
}

/// "head or tail fact ... disagrees with the objects (head and tail seqnum and realtime 0 when
/// empty; tail_entry_monotonic free when empty ...)". They are those of the first and the last
/// entry, also where another one has the least or the greatest realtime.
fn facts(image: &Image, found: &mut Vec<Clause>) {
    let committed = committed(image);
    let of = |offset: Option<&u64>, at: u64| offset.map_or(0, |offset| image.word(offset + at));
    let (head, tail) = (committed.first(), committed.last());
    for (at, value, clause) in [
        (
            header::HEAD_ENTRY_SEQNUM,
            of(head, entry::SEQNUM),
            HEAD_SEQNUM,
        ),
        (
            header::TAIL_ENTRY_SEQNUM,
            of(tail, entry::SEQNUM),
            TAIL_SEQNUM,
        ),
        (
            header::HEAD_ENTRY_REALTIME,
            of(head, entry::REALTIME),
            HEAD_REALTIME,
        ),
        (
            header::TAIL_ENTRY_REALTIME,
            of(tail, entry::REALTIME),
            TAIL_REALTIME,
        ),
    ] {
        if image.word(at) != value {
            found.push(clause);
        }
    }
    if let Some(tail) = tail {
        if image.word(header::TAIL_ENTRY_MONOTONIC) != image.word(tail + entry::MONOTONIC) {
            found.push(TAIL_MONOTONIC);
        }
    }
}

/// "cell tail": the last object of the cell's chain; empty cells have tail 0.
fn cell_tails(
    image: &Image,
    table: u8,
    chains: &[Vec<Object>],
    clause: Clause,
    found: &mut Vec<Clause>,
) {
    let table = image.of_kind(table)[0];
    for ((_, tail), chain) in image.cells(&table).into_iter().zip(chains) {
        if tail != chain.last().map_or(0, |object| object.offset) {
            found.push(clause);
        }
    }
}

/// "an array referred to twice": by the header, by any walked DATA's entry_array and by any
/// walked array's next.
fn arrays(image: &Image, found: &mut Vec<Clause>) {
    let mut places = vec![header::ENTRY_ARRAY_OFFSET];
    for object in image.of_kind(kind::DATA) {
        places.push(object.offset + data::ENTRY_ARRAY_OFFSET);
    }
    for object in image.of_kind(kind::ENTRY_ARRAY) {
        places.push(object.offset + array::NEXT_ENTRY_ARRAY_OFFSET);
    }
    let mut times: BTreeMap<u64, u64> = BTreeMap::new();
    for at in places {
        let offset = image.word(at);
        if offset != 0 {
            *times.entry(offset).or_default() += 1;
        }
    }
    if times.values().any(|&times| times > 1) {
        found.push(ARRAY_TWICE);
    }
}

/// 15: "machine id differs", bytes 40 to 56.
pub fn fifteen(image: &Image, machine_id: [u8; 16], found: &mut Vec<Clause>) {
    if id(image.bytes, header::MACHINE_ID) != machine_id {
        found.push(MACHINE_DIFFERS);
    }
}

/// 17: "seqnum 0; or against the last committed entry, if any: seqnum not above, same boot and
/// monotonic below". The boot is the last committed ENTRY's. "Realtime may now fall."
pub fn seventeen(image: &Image, request: &Request, found: &mut Vec<Clause>) {
    if request.seqnum == 0 {
        found.push(NEW_SEQNUM_ZERO);
    }
    if let Some(last) = committed(image).last() {
        if request.seqnum <= image.word(last + entry::SEQNUM) {
            found.push(NEW_SEQNUM);
        }
        let same_boot = id(image.bytes, last + entry::BOOT_ID) == request.boot_id;
        if same_boot && request.monotonic < image.word(last + entry::MONOTONIC) {
            found.push(NEW_MONOTONIC);
        }
    }
}
