//! The call that says why an image is refused.
use crate::call;

/// All 0 for an image that opens. Else the number; the place of the first object at fault, for 9 the
/// index of the first committed position at fault, 0 for the header; and at 11, if a hash is wrong in
/// that object, 1, the first such hash as it is stored, and as it ought to be.
#[repr(C)]
#[derive(Clone, Copy, Debug, Default, PartialEq, Eq)]
pub struct Why {
    pub refusal: u64,
    pub place: u64,
    pub hash_wrong: u64,
    pub stored: u64,
    pub right: u64,
}

/// Why the image is refused.
#[inline]
pub fn why(image: &[u8]) -> Why {
    unsafe { call!(journal_why(read image) -> Why) }
}
