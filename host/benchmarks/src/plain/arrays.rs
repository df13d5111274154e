//! Chains of ENTRY_ARRAYs, and the committed entries.
use super::bytes::u64_at;

/// The first items of a chain of arrays, array by array.
pub struct Arrays<'a> {
    pub image: &'a [u8],
    pub array: usize,
    pub left: u64,
}

impl<'a> Iterator for Arrays<'a> {
    type Item = &'a [u8];

    #[inline(always)]
    fn next(&mut self) -> Option<&'a [u8]> {
        if self.left == 0 {
            return None;
        }
        let at = self.array;
        let n = ((u64_at(self.image, at + 8) - 24) / 8).min(self.left);
        self.left -= n;
        self.array = u64_at(self.image, at + 16) as usize;
        Some(&self.image[at + 24..at + 24 + 8 * n as usize])
    }
}

/// The committed entries.
#[inline(always)]
pub fn committed(image: &[u8]) -> Arrays<'_> {
    Arrays {
        image,
        array: u64_at(image, 176) as usize,
        left: u64_at(image, 152),
    }
}

/// The last committed offset, 0 if none.
pub fn last_committed(image: &[u8]) -> u64 {
    let last = committed(image).last();
    last.map_or(0, |items| u64_at(items, items.len() - 8))
}

/// The first committed entry for which something holds, where it holds for all after that one: a
/// binary search in the first array whose last entry has it.
#[inline(always)]
pub fn binary_search(image: &[u8], holds: impl Fn(u64) -> bool) -> u64 {
    for items in committed(image) {
        let n = items.len() / 8;
        if !holds(u64_at(items, 8 * (n - 1))) {
            continue;
        }
        let (mut low, mut high) = (0, n - 1);
        while low < high {
            let middle = (low + high) / 2;
            if holds(u64_at(items, 8 * middle)) {
                high = middle;
            } else {
                low = middle + 1;
            }
        }
        return u64_at(items, 8 * low);
    }
    0
}
