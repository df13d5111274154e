//! Words of an image. What is read has to be there: the header from 2 on, objects where 6 let them pass.

/// Where the header has them.
pub const HEADER_SIZE: u64 = 88;
pub const ARENA_SIZE: u64 = 96;
pub const TAIL_OBJECT_OFFSET: u64 = 136;
pub const N_ENTRIES: u64 = 152;
pub const ENTRY_ARRAY_OFFSET: u64 = 176;

/// Where every object has its size.
pub const SIZE: u64 = 8;

/// The bytes at a place.
pub fn bytes<const N: usize>(image: &[u8], at: u64) -> [u8; N] {
    let bytes = &image[at as usize..][..N];
    bytes.try_into().expect("N bytes")
}

/// The 64-bit number at a place.
pub fn word(image: &[u8], at: u64) -> u64 {
    u64::from_le_bytes(bytes(image, at))
}

/// Incompatible bit 4.
pub fn is_compact(image: &[u8]) -> bool {
    image[12] & 16 != 0
}
