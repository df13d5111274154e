//! Files that the archive makes, of every kind that is written.
use super::compact::set_layout;
use crate::random::Random;
use reading::layout::Layout;
use wrapper::new;

/// The machine's id in `request` of the worked examples.
pub const MACHINE: [u8; 16] = [2; 16];

/// What is written: the layouts and header sizes, each keyed and not.
pub const WRITTEN: [(Layout, u64, bool); 8] = [
    (Layout::Regular, 256, false),
    (Layout::Regular, 256, true),
    (Layout::Regular, 272, false),
    (Layout::Regular, 272, true),
    (Layout::Compact, 256, false),
    (Layout::Compact, 256, true),
    (Layout::Compact, 272, false),
    (Layout::Compact, 272, true),
];

/// A new file of the archive, with so many cells in each of its tables, for `request` of the worked
/// examples.
pub fn made(
    (layout, header_size, keyed): (Layout, u64, bool),
    length: usize,
    cells: u64,
) -> Vec<u8> {
    let ids = [[1; 16], MACHINE, [3; 16], [4; 16]].concat();
    let ids = ids[..].try_into().expect("64 bytes");
    let mut image = Random::new(length as u64).bytes(length);
    let answer = new(&mut image, ids, cells, cells, keyed, header_size);
    assert_eq!(answer, Ok(()), "a new file of {length} bytes");
    set_layout(&mut image, layout);
    image
}
