//! Refusals 1 to 5. They are the header's.
use super::clause::*;
use super::fault::{Fault, HEADER};
use crate::image::{arena_end, le32, le64};
use crate::layout::{header, COMPACT, HEADER_SIZES, KEYED_HASH, MOST_BYTES, SIGNATURE};

/// 1: "fewer than 256 bytes"
pub fn one(bytes: &[u8], found: &mut Vec<Fault>) {
    if bytes.len() < 256 {
        found.push(SHORT.at(HEADER));
    }
}

/// 2: "more than 8,388,608 bytes"
pub fn two(bytes: &[u8], found: &mut Vec<Fault>) {
    if bytes.len() as u64 > MOST_BYTES {
        found.push(LONG.at(HEADER));
    }
}

/// 3: "signature differs"
pub fn three(bytes: &[u8], found: &mut Vec<Fault>) {
    if bytes[0..8] != SIGNATURE {
        found.push(SIGNATURE_DIFFERS.at(HEADER));
    }
}

/// 4: "an incompatible bit other than bit 2", and "no longer for bit 4"
pub fn four(bytes: &[u8], found: &mut Vec<Fault>) {
    let incompatible_flags = le32(bytes, header::INCOMPATIBLE_FLAGS);
    if incompatible_flags & !(KEYED_HASH | COMPACT) != 0 {
        found.push(INCOMPATIBLE_BIT.at(HEADER));
    }
}

/// 5: header_size none of the three sizes, "arena_size not a multiple of 8, or their sum above the
/// image length". The sum is the mathematical one. Only from here on may an image be read at 256
/// and up: it may have 256 bytes and call for a header of 272.
pub fn five(bytes: &[u8], found: &mut Vec<Fault>) {
    let header_size = le64(bytes, header::HEADER_SIZE);
    let arena_size = le64(bytes, header::ARENA_SIZE);
    let named = HEADER_SIZES.contains(&header_size);
    if !named {
        found.push(HEADER_SIZE.at(HEADER));
    }
    if arena_size % 8 != 0 {
        found.push(ARENA_NOT_EIGHTS.at(HEADER));
    }
    let (sum, length) = (arena_end(bytes), bytes.len() as u128);
    if sum > length {
        let clause = if sum >= 1 << 64 {
            SUM_ABOVE_64_BITS
        } else if named && header_size as u128 > length {
            HEADER_ABOVE_LENGTH
        } else {
            SUM_ABOVE_LENGTH
        };
        found.push(clause.at(HEADER));
    }
}
