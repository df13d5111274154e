//! The call on what is walked over.
use crate::call;

/// The image's refusal, and nothing else; or the offset and the type of an object of type 8 and up,
/// all 0 for none.
#[repr(C)]
#[derive(Clone, Copy, Debug, Default, PartialEq, Eq)]
pub struct Foreign {
    pub refusal: u64,
    pub offset: u64,
    pub kind: u64,
}

/// The walked object of type 8 and up, by place in file order.
#[inline]
pub fn foreign(image: &[u8], place: u64) -> Foreign {
    unsafe { call!(journal_foreign(read image, number place) -> Foreign) }
}
