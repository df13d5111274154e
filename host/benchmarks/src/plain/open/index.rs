//! Refusal 11: chains with a filter of hashes and marks, FIELDs' lists with marks, and what
//! committed entries hold.
use super::map::{Open, CHAINED, COMMITTED, FIELD, LISTED, SEEN};
use crate::plain::bytes::{first_object, name_length, next, u64_at};

impl Open<'_> {
    pub fn chains_fault(&mut self, table: usize, body: usize) -> bool {
        let start = self.word(table) as usize;
        let cells = self.word(table + 8) / 16;
        let mut filter = [0u64; 16_384];
        for cell in 0..cells {
            let head = self.word(start + 16 * cell as usize) as usize;
            let mut at = head;
            while at != 0 {
                let hash = self.word(at + 16);
                if hash % cells != cell {
                    return true;
                }
                let word = &mut filter[(hash >> 50) as usize];
                let bit = 1 << (hash >> 44) % 64;
                if *word & bit != 0 && self.alike_earlier(head, at, body) {
                    return true;
                }
                *word |= bit;
                self.map[at / 8] |= CHAINED;
                at = self.word(at + 24) as usize;
            }
        }
        false
    }

    fn alike_earlier(&self, head: usize, at: usize, body: usize) -> bool {
        let hash = self.word(at + 16);
        let mut other = head;
        while other != at {
            // The hash and next_hash, with one test of the bounds.
            let words = &self.image[other + 16..other + 32];
            if u64_at(words, 0) == hash && self.hashed(other, body) == self.hashed(at, body) {
                return true;
            }
            other = u64_at(words, 8) as usize;
        }
        false
    }

    pub fn names_fault(&mut self) -> bool {
        let mut at = first_object(self.image);
        while at <= self.tail {
            if self.image[at] == FIELD {
                let mark = match self.map[at / 8] & CHAINED {
                    0 => SEEN,
                    _ => LISTED,
                };
                let mut data = self.word(at + 32) as usize;
                while data != 0 {
                    let name = self.hashed(at, 40);
                    let payload = self.hashed(data, 64);
                    if name_length(payload).map(|n| &payload[..n]) != Some(name) {
                        return true;
                    }
                    if self.map[data / 8] & mark != 0 {
                        break;
                    }
                    self.map[data / 8] |= mark;
                    data = self.word(data + 32) as usize;
                }
            }
            at = next(self.image, at);
        }
        false
    }

    pub fn reach_fault(&self) -> bool {
        let reached = CHAINED | LISTED;
        let mut at = first_object(self.image);
        while at <= self.tail {
            if self.map[at / 8] & COMMITTED != 0 {
                for item in self.image[at + 64..at + self.size(at)].chunks_exact(16) {
                    if self.slot(u64_at(item, 0)) & reached != reached {
                        return true;
                    }
                }
            }
            at = next(self.image, at);
        }
        false
    }
}
