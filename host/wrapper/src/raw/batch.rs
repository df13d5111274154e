//! The call on several entries at once.
use crate::call;

/// The refusal, at 16 to 18 with the index of the first bad entry, and the number of stores, of a batch
/// that is taken or at 19; all else is 0.
#[repr(C)]
#[derive(Clone, Copy, Debug, Default, PartialEq, Eq)]
pub struct Batch {
    pub refusal: u64,
    pub index: u64,
    pub stores: u64,
}

/// Works out the stores of a batch, to the front of the list, 16 bytes each. The image is not written:
/// `carry_out` does that.
#[inline]
pub fn plan_batch(image: &[u8], machine: &[u8; 16], entries: &[u8], stores: &mut [u8]) -> Batch {
    unsafe {
        call!(journal_plan_batch(
            read image, array machine, read entries, write stores
        ) -> Batch)
    }
}
