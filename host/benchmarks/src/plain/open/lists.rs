//! Refusals 9 and 10: the committed entries, and the lists by counting.
use super::map::{Open, COMMITTED, DATA, ENTRY};
use crate::plain::bytes::{first_object, next, u64_at};

impl Open<'_> {
    /// Refusal 9, or the last committed offset; committed entries are marked.
    pub fn committed(&mut self) -> Option<u64> {
        let image = self.image;
        let mut left = self.word(152);
        let mut array = self.word(176) as usize;
        let mut last = 0;
        while left > 0 {
            if array == 0 {
                return None;
            }
            for item in image[array + 24..array + self.size(array)].chunks_exact(8) {
                if left == 0 {
                    break;
                }
                left -= 1;
                let offset = u64_at(item, 0);
                if !self.stands(offset, ENTRY) {
                    return None;
                }
                let at = offset as usize;
                if self.word(at + 16) == 0 || last != 0 && self.out_of_order(last, at) {
                    return None;
                }
                self.map[at / 8] |= COMMITTED;
                last = at;
            }
            array = self.word(array + 16) as usize;
        }
        Some(last as u64)
    }

    fn out_of_order(&self, one: usize, next: usize) -> bool {
        next <= one
            || self.word(next + 16) <= self.word(one + 16)
            || self.word(next + 32) < self.word(one + 32)
                && self.image[next + 40..next + 56] == self.image[one + 40..one + 56]
    }

    pub fn lists_fault(&self, last: u64) -> bool {
        let (mut listed, mut held) = (0, 0);
        let mut at = first_object(self.image);
        while at <= self.tail {
            if self.image[at] == DATA {
                match self.members(at, last) {
                    Some(members) => listed += members,
                    None => return true,
                }
            } else if self.map[at / 8] & COMMITTED != 0 {
                held += (self.size(at) - 64) / 16;
            }
            at = next(self.image, at);
        }
        listed != held
    }

    /// How many members a DATA's list has; none where it is wrong.
    #[inline(always)]
    fn members(&self, at: usize, last: u64) -> Option<usize> {
        let mut left = self.word(at + 56);
        if left == 0 {
            return Some(0);
        }
        left -= 1;
        let (mut before, mut members) = (0, 0);
        let first = self.word(at + 40);
        if first <= last {
            if !self.follows(at, before, first) {
                return None;
            }
            (before, members) = (first, 1);
        }
        let mut array = self.word(at + 48) as usize;
        while left > 0 {
            if array == 0 {
                return None;
            }
            for item in self.image[array + 24..array + self.size(array)].chunks_exact(8) {
                if left == 0 {
                    break;
                }
                left -= 1;
                let entry = u64_at(item, 0);
                if entry <= last {
                    if !self.follows(at, before, entry) {
                        return None;
                    }
                    before = entry;
                    members += 1;
                }
            }
            array = self.word(array + 16) as usize;
        }
        Some(members)
    }

    #[inline(always)]
    fn follows(&self, data: usize, before: u64, entry: u64) -> bool {
        if entry <= before || self.slot(entry) & COMMITTED == 0 {
            return false;
        }
        let entry = entry as usize;
        let items = &self.image[entry + 64..entry + self.size(entry)];
        let (mut low, mut high) = (0, items.len() / 16);
        while low < high {
            let middle = (low + high) / 2;
            let item = u64_at(items, 16 * middle) as usize;
            if item == data {
                return true;
            }
            if item < data {
                low = middle + 1;
            } else {
                high = middle;
            }
        }
        false
    }
}
