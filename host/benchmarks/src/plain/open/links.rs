//! Refusal 8: links by the map.
use super::map::{Open, ARRAY, DATA, ENTRY, FIELD};
use crate::plain::bytes::{first_object, next, u64_at};

impl Open<'_> {
    pub fn links_fault(&self) -> bool {
        if !self.lands(self.word(176), ARRAY) {
            return true;
        }
        let mut at = first_object(self.image);
        while at <= self.tail {
            if self.object_links_fault(at) {
                return true;
            }
            at = next(self.image, at);
        }
        false
    }

    #[inline(always)]
    fn object_links_fault(&self, at: usize) -> bool {
        let here = at as u64;
        let later = |link: u64, kind: u8| link == 0 || link > here && self.stands(link, kind);
        match self.image[at] {
            DATA => {
                let next_field = self.word(at + 32);
                !(later(self.word(at + 24), DATA)
                    && (next_field == 0 || next_field < here && self.stands(next_field, DATA))
                    && self.lands(self.word(at + 40), ENTRY)
                    && self.lands(self.word(at + 48), ARRAY))
            }
            FIELD => !(later(self.word(at + 24), FIELD) && self.lands(self.word(at + 32), DATA)),
            ENTRY => {
                let mut before = 0;
                for item in self.image[at + 64..at + self.size(at)].chunks_exact(16) {
                    let offset = u64_at(item, 0);
                    if offset <= before || !self.stands(offset, DATA) {
                        return true;
                    }
                    before = offset;
                }
                false
            }
            ARRAY => !later(self.word(at + 16), ARRAY),
            kind @ (4 | 5) => self.image[at + 16..at + self.size(at)]
                .chunks_exact(16)
                .any(|cell| !self.lands(u64_at(cell, 0), kind - 3)),
            _ => false,
        }
    }
}
