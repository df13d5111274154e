//! Compact files. None is made as a new file; one with no entry is a regular one with the bit set, since
//! tables have the same form in both.
use super::dice::pick;
use crate::random::Random;
use reading::layout::{header, Layout, COMPACT};

/// Makes a file without entries compact, or leaves it regular.
pub fn set_layout(image: &mut [u8], layout: Layout) {
    if layout == Layout::Compact {
        image[header::INCOMPATIBLE_FLAGS as usize] |= COMPACT as u8;
    }
}

/// Makes it one of both.
pub fn any_layout(random: &mut Random, image: &mut [u8]) {
    let layout = pick(random, &Layout::BOTH);
    set_layout(image, layout);
}
