//! Plain Rust, written for speed, with the archive's passes and its ways through a file: what the
//! archive is measured against.
mod arrays;
mod bytes;
pub mod exchange;
pub mod frame;
pub mod lookup;
pub mod merged;
pub mod open;

/// It reads regular files only: those without incompatible bit 4.
pub fn reads(image: &[u8]) -> bool {
    image.get(12).is_none_or(|flags| flags & 16 == 0)
}
