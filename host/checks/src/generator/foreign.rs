//! Foreign objects put into files that are there.
use super::dice::{between, pick};
use super::frame::set;
use crate::random::Random;
use reading::image::{arena_end, le64, Object};
use reading::layout::header;

/// A type and a size, often at an end of what there may be.
pub fn any(random: &mut Random) -> (u8, u64) {
    let (kind, size) = (between(random, 8, 255) as u8, between(random, 16, 90));
    (
        pick(random, &[8, 255, kind, kind, kind]),
        pick(random, &[16, 17, 24, size, size, size]),
    )
}

/// Puts one behind the tail object of a file that opens, as a newer writer would: it is the tail object
/// then, and counted. Nothing is done where the arena has no room for it.
pub fn put(image: &mut [u8], kind: u8, size: u64) -> Option<u64> {
    let tail = Object::read(image, le64(image, header::TAIL_OBJECT_OFFSET));
    let at = tail.next() as u64;
    if (at + size) as u128 > arena_end(image) {
        return None;
    }
    image[at as usize..at as usize + 2].copy_from_slice(&[kind, 0]);
    set(image, at + 8, size);
    set(image, header::TAIL_OBJECT_OFFSET, at);
    let objects = le64(image, header::N_OBJECTS);
    set(image, header::N_OBJECTS, objects.wrapping_add(1));
    Some(at)
}
