//! The object map, with a byte for each eight bytes of the image.
use crate::plain::bytes::{first_object, next, u64_at, LONGEST_IMAGE};

pub const DATA: u8 = 1;
pub const FIELD: u8 = 2;
pub const ENTRY: u8 = 3;
pub const ARRAY: u8 = 6;

/// A byte of the map: the type in the low half, and marks.
pub const KIND: u8 = 15;
pub const COMMITTED: u8 = 16;
pub const CHAINED: u8 = 32;
pub const LISTED: u8 = 64;
pub const SEEN: u8 = 128;

/// An image that passes 1 to 7, with its object map.
pub struct Open<'a> {
    pub image: &'a [u8],
    pub map: &'a mut [u8; LONGEST_IMAGE / 8],
    pub tail: usize,
}

impl Open<'_> {
    /// Marks the types of the objects.
    pub fn fill(&mut self) {
        let mut at = first_object(self.image);
        while at <= self.tail {
            self.map[at / 8] = self.image[at].min(8);
            at = next(self.image, at);
        }
    }

    #[inline(always)]
    pub fn word(&self, at: usize) -> u64 {
        u64_at(self.image, at)
    }

    #[inline(always)]
    pub fn size(&self, at: usize) -> usize {
        self.word(at + 8) as usize
    }

    #[inline(always)]
    pub fn slot(&self, at: u64) -> u8 {
        match at % 8 {
            0 => self.map.get((at / 8) as usize).copied().unwrap_or(0),
            _ => 0,
        }
    }

    #[inline(always)]
    pub fn stands(&self, at: u64, kind: u8) -> bool {
        self.slot(at) & KIND == kind
    }

    #[inline(always)]
    pub fn lands(&self, at: u64, kind: u8) -> bool {
        at == 0 || self.stands(at, kind)
    }

    /// The bytes of an object from some on.
    #[inline(always)]
    pub fn hashed(&self, at: usize, body: usize) -> &[u8] {
        &self.image[at + body..at + self.size(at)]
    }
}
