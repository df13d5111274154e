//! What the boot id at 56 means. "the id itself is no lookup"
use super::image::le32;
use super::layout::{header, TAIL_ENTRY_BOOT_ID};
use super::refusal::refusal;

/// What the call answers: the image's refusal, and nothing else; or whether the boot id is the tail
/// entry's, 1 or 0.
#[derive(Clone, Copy, Debug, Default, PartialEq, Eq)]
pub struct BootMeaning {
    pub refusal: u64,
    pub of_tail_entry: u64,
}

/// "The boot id at 56 is the tail entry's boot only if compatible bit 1 is set, and the reader says
/// which meaning holds, from that bit alone".
pub fn boot_meaning(image: &[u8]) -> BootMeaning {
    match refusal(image) {
        0 => {
            let set = le32(image, header::COMPATIBLE_FLAGS) & TAIL_ENTRY_BOOT_ID != 0;
            BootMeaning {
                refusal: 0,
                of_tail_entry: set.into(),
            }
        }
        refusal => BootMeaning {
            refusal,
            of_tail_entry: 0,
        },
    }
}
