//! The call on the boot id in the header.
use crate::call;

/// The image's refusal, and nothing else; or 1 if the header's boot id is that of the last entry, and
/// 0 if it need not be.
#[repr(C)]
#[derive(Clone, Copy, Debug, Default, PartialEq, Eq)]
pub struct BootMeaning {
    pub refusal: u64,
    pub of_tail_entry: u64,
}

/// What the header's boot id means, by compatible bit 1.
#[inline]
pub fn boot_meaning(image: &[u8]) -> BootMeaning {
    unsafe { call!(journal_boot_meaning(read image) -> BootMeaning) }
}
