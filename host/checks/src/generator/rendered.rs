//! A draft written as an image.
use super::draft::{Draft, Part};
use reading::image::{le32, le64};
use reading::layout::{field, kind, Layout};
use reading::lookup3::hashlittle2;
use reading::siphash::siphash24;

/// A draft with its image and the offsets of its parts.
#[derive(Clone)]
pub struct Rendered {
    pub draft: Draft,
    pub image: Vec<u8>,
    pub offsets: Vec<u64>,
    pub data_table: u64,
    pub field_table: u64,
    pub tail: u64,
    pub arena_end: u64,
}

impl Rendered {
    pub fn word(&self, at: u64) -> u64 {
        le64(&self.image, at)
    }

    pub fn set(&mut self, at: u64, value: u64) {
        self.image[at as usize..at as usize + 8].copy_from_slice(&value.to_le_bytes());
    }

    /// A number of 32 bits.
    pub fn set_half(&mut self, at: u64, value: u32) {
        self.image[at as usize..at as usize + 4].copy_from_slice(&value.to_le_bytes());
    }

    /// The offset in an item of an ENTRY or an array.
    pub fn item(&self, at: u64) -> u64 {
        match self.draft.layout {
            Layout::Regular => self.word(at),
            Layout::Compact => le32(&self.image, at).into(),
        }
    }

    /// Another offset in an item, of which a compact file has the low 32 bits.
    pub fn set_item(&mut self, at: u64, value: u64) {
        match self.draft.layout {
            Layout::Regular => self.set(at, value),
            Layout::Compact => self.set_half(at, value as u32),
        }
    }

    pub fn set_byte(&mut self, at: u64, value: u8) {
        self.image[at as usize] = value;
    }
}

/// The size of a part's object.
pub fn size(layout: Layout, part: &Part) -> u64 {
    match part {
        Part::Data(it) => layout.data_size(it.payload.len()),
        Part::Field(it) => field::NAME + it.name.len() as u64,
        Part::Entry(it) => layout.entry_size(it.items.len()),
        Part::Array(it) => layout.array_size(it.items.len() as u64),
        Part::Tag => 64,
        Part::Foreign { size, .. } => *size,
    }
}

pub fn kind_of(part: &Part) -> u8 {
    match part {
        Part::Data(_) => kind::DATA,
        Part::Field(_) => kind::FIELD,
        Part::Entry(_) => kind::ENTRY,
        Part::Array(_) => kind::ENTRY_ARRAY,
        Part::Tag => kind::TAG,
        Part::Foreign { kind, .. } => *kind,
    }
}

/// The hash of a payload or name in a draft's file.
pub fn hash(draft: &Draft, bytes: &[u8]) -> u64 {
    if draft.keyed {
        siphash24(&draft.file_id, bytes)
    } else {
        hashlittle2(bytes)
    }
}
