//! Numbers and objects in an image.

pub const LEAST_HEADER: usize = 256;
pub const LONGEST_IMAGE: usize = 8_388_608;

pub fn u32_at(bytes: &[u8], at: usize) -> u32 {
    u32::from_le_bytes(bytes[at..at + 4].try_into().expect("four bytes"))
}

pub fn u64_at(bytes: &[u8], at: usize) -> u64 {
    u64::from_le_bytes(bytes[at..at + 8].try_into().expect("eight bytes"))
}

/// Where the first object starts: at the header's end, which 5 has let pass.
#[inline]
pub fn first_object(image: &[u8]) -> usize {
    u64_at(image, 88) as usize
}

/// Where the object after one starts.
#[inline]
pub fn next(arena: &[u8], at: usize) -> usize {
    at + (u64_at(arena, at + 8) as usize + 7) / 8 * 8
}

/// How long the name of a payload is.
#[inline(always)]
pub fn name_length(payload: &[u8]) -> Option<usize> {
    payload.iter().position(|&byte| byte == b'=')
}
