//! Images that are a frame and no more: a header, two tables of one cell and other objects, all of
//! whose bytes but the type and the size are 0. Refusals 1 to 7 do not apply; later ones may.
use super::compact::set_layout;
use reading::layout::{header, kind, table, Layout, SIGNATURE};

/// Objects of these types and sizes after the tables; sizes that their types can have.
pub fn frame(objects: &[(u8, u64)]) -> Vec<u8> {
    frame_with(256, objects)
}

/// The same with a header of any of the three sizes.
pub fn frame_with(header_size: u64, objects: &[(u8, u64)]) -> Vec<u8> {
    frame_in(Layout::Regular, header_size, objects)
}

/// And in any layout.
pub fn frame_in(layout: Layout, header_size: u64, objects: &[(u8, u64)]) -> Vec<u8> {
    let mut image = vec![0; header_size as usize];
    image[..8].copy_from_slice(&SIGNATURE);
    set(&mut image, header::HEADER_SIZE, header_size);
    set_layout(&mut image, layout);
    let tables = [
        (
            kind::DATA_HASH_TABLE,
            header::DATA_HASH_TABLE_OFFSET,
            header::DATA_HASH_TABLE_SIZE,
        ),
        (
            kind::FIELD_HASH_TABLE,
            header::FIELD_HASH_TABLE_OFFSET,
            header::FIELD_HASH_TABLE_SIZE,
        ),
    ];
    for (kind, offset, size) in tables {
        let at = object(&mut image, kind, 32);
        set(&mut image, offset, at + table::CELLS);
        set(&mut image, size, 32 - table::CELLS);
    }
    for &(kind, size) in objects {
        object(&mut image, kind, size);
    }
    let arena_size = image.len() as u64 - header_size;
    set(&mut image, header::ARENA_SIZE, arena_size);
    image
}

/// Adds an object, which is the tail object from now on; its offset.
fn object(image: &mut Vec<u8>, kind: u8, size: u64) -> u64 {
    let at = image.len() as u64;
    image.resize((at + (size + 7) / 8 * 8) as usize, 0);
    image[at as usize] = kind;
    set(image, at + 8, size);
    set(image, header::TAIL_OBJECT_OFFSET, at);
    at
}

/// Puts the number at a place.
pub fn set(image: &mut [u8], at: u64, value: u64) {
    image[at as usize..at as usize + 8].copy_from_slice(&value.to_le_bytes());
}
