//! How much room a chain of arrays has, by the items that it took, and how much it may have.
use super::layout::Layout;

/// The arrays of a chain that took so many items one by one, each by the items that it has room for:
/// "First array 4 items, a later one twice the one before, at most 65,536", and one more only "if the
/// chain has no spare item".
pub fn rooms(items: u64) -> Vec<u64> {
    let (mut rooms, mut room) = (Vec::new(), 0);
    while room < items {
        let next = match rooms.last() {
            None => 4,
            Some(before) => 65_536.min(2 * before),
        };
        rooms.push(next);
        room += next;
    }
    rooms
}

/// The items that they have room for together.
pub fn room(items: u64) -> u64 {
    rooms(items).iter().sum()
}

/// The bytes that they take in a file, each "rounded up to a multiple of 8".
pub fn bytes(layout: Layout, items: u64) -> u64 {
    let sizes = rooms(items).into_iter().map(|room| layout.array_size(room));
    sizes.map(|size| (size + 7) / 8 * 8).sum()
}

/// "with n entries, n at least 1, the global chain has at most 2n + 2 items of room"
pub fn most_global(entries: u64) -> u64 {
    2 * entries + 2
}

/// "a DATA with n entries, n at least 2, at most 2n in its chain"; with fewer it has none, since the
/// first one stands in the DATA itself.
pub fn most_of_data(entries: u64) -> u64 {
    match entries {
        0 | 1 => 0,
        _ => 2 * entries,
    }
}
