//! What is wished for.

/// What a good image is to be.
#[derive(Clone, Copy)]
pub struct Wish {
    /// Fit for an append: refusals 12 to 14 and 25 do not apply.
    pub tidy: bool,
    /// At most so many entries and DATA.
    pub entries: u64,
    pub data: u64,
}
