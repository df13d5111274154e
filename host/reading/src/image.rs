//! The file on disk: numbers, objects and the walk over them.
//!
//! "Numbers are unsigned and little-endian, 64 bits unless said."
use std::collections::BTreeMap;

use super::layout::{array, entry, field, header, kind, table, Layout, KEYED_HASH};
use super::{lookup3::hashlittle2, siphash::siphash24};

/// The 64-bit number at a place.
pub fn le64(bytes: &[u8], at: u64) -> u64 {
    little_endian(bytes, at, 8)
}

/// The 32-bit number at a place.
pub fn le32(bytes: &[u8], at: u64) -> u32 {
    little_endian(bytes, at, 4) as u32
}

/// The number in so many bytes from a place on.
fn little_endian(bytes: &[u8], at: u64, count: usize) -> u64 {
    let at = at as usize;
    (0..count).fold(0, |value, i| value | (bytes[at + i] as u64) << (8 * i))
}

/// The 16 bytes of an id at a place.
pub fn id(bytes: &[u8], at: u64) -> [u8; 16] {
    let at = at as usize;
    let mut value = [0u8; 16];
    value.copy_from_slice(&bytes[at..at + 16]);
    value
}

/// The layout of an image's objects, which only means something where 4 lets the flags pass.
pub fn layout(bytes: &[u8]) -> Layout {
    Layout::of_flags(le32(bytes, header::INCOMPATIBLE_FLAGS))
}

/// "objects start at the header's end": where the first one stands, which only means something
/// where 5 lets the header's size pass.
pub fn first_object(bytes: &[u8]) -> u64 {
    le64(bytes, header::HEADER_SIZE)
}

/// The end of the arena as the mathematical sum, which never wraps.
pub fn arena_end(bytes: &[u8]) -> u128 {
    first_object(bytes) as u128 + le64(bytes, header::ARENA_SIZE) as u128
}

/// An object: "type, flags, 6 reserved bytes, then size at 8".
#[derive(Clone, Copy, Debug, PartialEq, Eq)]
pub struct Object {
    pub offset: u64,
    pub kind: u8,
    pub flags: u8,
    pub size: u64,
}

impl Object {
    /// The object at a place whose 16 header bytes lie in the image.
    pub fn read(bytes: &[u8], offset: u64) -> Object {
        Object {
            offset,
            kind: bytes[offset as usize],
            flags: bytes[offset as usize + 1],
            size: le64(bytes, offset + 8),
        }
    }

    /// "the next object starts at its offset plus its size rounded up to a multiple of 8"
    pub fn next(&self) -> u128 {
        let size = self.size as u128;
        self.offset as u128 + (size + 7) / 8 * 8
    }
}

/// An image that passes refusals 1 to 6, with its objects from the header's end up to and
/// including the one at tail_object_offset.
pub struct Image<'a> {
    pub bytes: &'a [u8],
    pub layout: Layout,
    pub objects: Vec<Object>,
    by_offset: BTreeMap<u64, Object>,
}

impl<'a> Image<'a> {
    /// Walks an image that passes refusals 1 to 6.
    pub fn walked(bytes: &'a [u8]) -> Image<'a> {
        let tail_object_offset = le64(bytes, header::TAIL_OBJECT_OFFSET);
        let mut objects = Vec::new();
        let mut by_offset = BTreeMap::new();
        let mut offset = first_object(bytes);
        while offset <= tail_object_offset {
            let object = Object::read(bytes, offset);
            objects.push(object);
            by_offset.insert(offset, object);
            offset = object.next() as u64;
        }
        Image {
            bytes,
            layout: layout(bytes),
            objects,
            by_offset,
        }
    }

    pub fn word(&self, at: u64) -> u64 {
        le64(self.bytes, at)
    }

    /// The offset in an item of an ENTRY or an ENTRY_ARRAY at a place.
    pub fn item(&self, at: u64) -> u64 {
        little_endian(self.bytes, at, self.layout.array_item() as usize)
    }

    pub fn header_size(&self) -> u64 {
        self.word(header::HEADER_SIZE)
    }

    /// The walked object at an offset, if one starts there.
    pub fn object_at(&self, offset: u64) -> Option<Object> {
        self.by_offset.get(&offset).copied()
    }

    /// Whether an offset lands on a walked object of a kind.
    pub fn lands(&self, offset: u64, kind: u8) -> bool {
        match self.object_at(offset) {
            Some(object) => object.kind == kind,
            None => false,
        }
    }

    /// The walked objects of a kind, in file order.
    pub fn of_kind(&self, kind: u8) -> Vec<Object> {
        self.objects
            .iter()
            .copied()
            .filter(|object| object.kind == kind)
            .collect()
    }

    /// A DATA's payload (from 64, or 72 in a compact file) or a FIELD's name (from 40), without padding.
    pub fn payload(&self, object: &Object) -> &'a [u8] {
        let start = if object.kind == kind::DATA {
            self.layout.payload()
        } else {
            field::NAME
        };
        &self.bytes[(object.offset + start) as usize..(object.offset + object.size) as usize]
    }

    /// An ENTRY's items: DATA offset, and the hash where an item has one.
    pub fn entry_items(&self, object: &Object) -> Vec<(u64, Option<u64>)> {
        let hash = |at: u64| match self.layout {
            Layout::Regular => Some(self.word(at + 8)),
            Layout::Compact => None,
        };
        places(object, entry::ITEMS, self.layout.entry_item())
            .map(|at| (self.item(at), hash(at)))
            .collect()
    }

    /// A table's cells (head, tail).
    pub fn cells(&self, object: &Object) -> Vec<(u64, u64)> {
        places(object, table::CELLS, 16)
            .map(|at| (self.word(at), self.word(at + 8)))
            .collect()
    }

    /// The items of the chain of ENTRY_ARRAYs that starts at an offset, each with its place; empty for offset 0. The links have passed refusal 8.
    pub fn chain_items(&self, first: u64) -> Vec<(u64, u64)> {
        let mut items = Vec::new();
        for object in self.arrays(first) {
            let all = places(&object, array::ITEMS, self.layout.array_item());
            items.extend(all.map(|at| (at, self.item(at))));
        }
        items
    }

    /// The ENTRY_ARRAYs of the chain that starts at an offset.
    pub fn arrays(&self, first: u64) -> Vec<Object> {
        let mut arrays = Vec::new();
        let mut offset = first;
        while offset != 0 {
            arrays.push(self.object_at(offset).expect("refusal 8 passed"));
            offset = self.word(offset + array::NEXT_ENTRY_ARRAY_OFFSET);
        }
        arrays
    }

    /// The number of an ENTRY_ARRAY's items.
    pub fn room(&self, object: &Object) -> u64 {
        (object.size - array::ITEMS) / self.layout.array_item()
    }

    /// "Hash of a payload or name: SipHash-2-4 keyed by file_id if incompatible bit 2 is set,
    /// else hashlittle2 with its first word high."
    pub fn hash(&self, bytes: &[u8]) -> u64 {
        if le32(self.bytes, header::INCOMPATIBLE_FLAGS) & KEYED_HASH != 0 {
            siphash24(&id(self.bytes, header::FILE_ID), bytes)
        } else {
            hashlittle2(bytes)
        }
    }
}

/// The places of an object's parts of so many bytes, from a place in it on. Padding is no part.
fn places(object: &Object, start: u64, part: u64) -> impl Iterator<Item = u64> {
    let first = object.offset + start;
    (0..(object.size - start) / part).map(move |i| first + part * i)
}

/// The name of a payload: "the name ends at the first `=`". None without `=`.
pub fn name_of(payload: &[u8]) -> Option<&[u8]> {
    let end = payload.iter().position(|&byte| byte == b'=')?;
    Some(&payload[..end])
}
