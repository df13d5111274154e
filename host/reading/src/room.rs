//! Where an append's new objects go, and refusal 18.
use super::committed::committed;
use super::image::{arena_end, name_of, Image, Object};
use super::index::{on_chain, Index};
use super::layout::{array, data, header};

/// A payload of the request: its DATA, old or new, and its FIELD where that is new.
pub struct Placed<'a> {
    pub payload: &'a [u8],
    pub name: &'a [u8],
    pub data: u64,
    pub is_new: bool,
    /// The FIELD of its name, old or new.
    pub field: u64,
    pub field_is_new: bool,
}

/// Where a list of entries takes the new one.
#[derive(Clone, Copy, PartialEq, Eq, Debug)]
pub enum Slot {
    /// An array's spare item.
    Spare(u64),
    /// A new array of so many items, linked from the word.
    Array { offset: u64, items: u64, link: u64 },
    /// entry_offset of an old DATA of count 0.
    Inline,
}

/// All places of an append.
pub struct Places<'a> {
    pub start: u64,
    pub payloads: Vec<Placed<'a>>,
    pub entry: u64,
    pub global: Slot,
    /// The old DATA of the entry, by offset.
    pub lists: Vec<(u64, Slot)>,
    pub tail_object_offset: u64,
    pub end: u128,
}

/// "New objects, after the tail object": a counter of where the next one stands.
struct Room {
    next: u128,
    last: u128,
}

impl Room {
    fn take(&mut self, size: u64) -> u64 {
        self.last = self.next;
        self.next += (size as u128 + 7) / 8 * 8;
        self.last as u64
    }
}

/// Lays the new objects out: "for each new payload in input order its DATA, then its FIELD if
/// the name is new; the ENTRY, items rising; a global array if the chain has no spare item;
/// arrays of DATA that need one, by DATA offset".
pub fn places<'a>(image: &Image, payloads: &[&'a [u8]]) -> Places<'a> {
    let index = Index::of(image);
    let tail = image.objects[image.objects.len() - 1];
    let start = tail.next() as u64;
    let mut room = Room {
        next: tail.next(),
        last: 0,
    };
    let mut placed: Vec<Placed> = Vec::new();
    for &payload in payloads {
        let name = name_of(payload).expect("refusal 16 passed");
        let old = on_chain(image, &index.data, payload);
        let data = old.map_or_else(
            || room.take(image.layout.data_size(payload.len())),
            |object| object.offset,
        );
        let made = placed
            .iter()
            .find(|other| other.name == name)
            .map(|other| other.field);
        let known = on_chain(image, &index.fields, name)
            .map(|object| object.offset)
            .or(made);
        let field = known.unwrap_or_else(|| room.take(40 + name.len() as u64));
        let (is_new, field_is_new) = (old.is_none(), known.is_none());
        placed.push(Placed {
            payload,
            name,
            data,
            is_new,
            field,
            field_is_new,
        });
    }
    let entry = room.take(image.layout.entry_size(payloads.len()));
    let n_entries = committed(image).len() as u64;
    let global = slot(image, &mut room, header::ENTRY_ARRAY_OFFSET, n_entries);
    let mut old: Vec<u64> = placed
        .iter()
        .filter(|one| !one.is_new)
        .map(|one| one.data)
        .collect();
    old.sort();
    let mut lists = Vec::new();
    for offset in old {
        let n_entries = image.word(offset + data::N_ENTRIES);
        let slot = match n_entries {
            0 => Slot::Inline,
            _ => slot(
                image,
                &mut room,
                offset + data::ENTRY_ARRAY_OFFSET,
                n_entries - 1,
            ),
        };
        lists.push((offset, slot));
    }
    let tail_object_offset = room.last as u64;
    Places {
        start,
        payloads: placed,
        entry,
        global,
        lists,
        tail_object_offset,
        end: room.next,
    }
}

/// The place in a chain of arrays after so many items. "First array 4 items, a later one twice
/// the one before, at most 65,536."
fn slot(image: &Image, room: &mut Room, first: u64, counted: u64) -> Slot {
    let offset = image.word(first);
    let items = image.chain_items(offset);
    if (items.len() as u64) > counted {
        return Slot::Spare(items[counted as usize].0);
    }
    let arrays: Vec<Object> = image.arrays(offset);
    let (items, link) = match arrays.last() {
        None => (4, first),
        Some(last) => (
            (2 * image.room(last)).min(65_536),
            last.offset + array::NEXT_ENTRY_ARRAY_OFFSET,
        ),
    };
    Slot::Array {
        offset: room.take(image.layout.array_size(items)),
        items,
        link,
    }
}

/// 18: "the new objects pass the arena's end"
pub fn pass_the_end(image: &Image, places: &Places) -> bool {
    places.end > arena_end(image.bytes)
}
