//! Refusals 1 to 11: the walk and the map, links by the map, the committed entries, lists by
//! counting, hashes, chains and lists.
mod hashes;
mod index;
mod links;
mod lists;
mod map;

use super::bytes::{u64_at, LONGEST_IMAGE};
use super::frame::refusal as framed;
use map::Open;

pub fn open(image: &[u8]) -> u64 {
    match framed(image) {
        0 => {}
        number => return number,
    }
    let mut map = [0u8; LONGEST_IMAGE / 8];
    let tail = u64_at(image, 136) as usize;
    let mut open = Open {
        image,
        map: &mut map,
        tail,
    };
    open.fill();
    if open.links_fault() {
        return 8;
    }
    let Some(last) = open.committed() else {
        return 9;
    };
    if open.lists_fault(last) {
        return 10;
    }
    if open.hashes_fault() {
        return 11;
    }
    0
}
