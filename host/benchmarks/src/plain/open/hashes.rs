//! Refusal 11: each hash once, xor_hash with a cache of payloads' hashes.
use super::map::{Open, DATA, ENTRY, FIELD};
use crate::plain::bytes::{first_object, name_length, next, u32_at, u64_at};
use reading::lookup3::hashlittle2;
use reading::siphash::siphash24;

impl Open<'_> {
    pub fn hashes_fault(&mut self) -> bool {
        let keyed = u32_at(self.image, 12) & 4 != 0;
        self.selves_fault(keyed)
            || self.items_fault(keyed)
            || self.chains_fault(104, 64)
            || self.chains_fault(120, 40)
            || self.names_fault()
            || self.reach_fault()
    }

    fn selves_fault(&self, keyed: bool) -> bool {
        let id: &[u8; 16] = self.image[24..40].try_into().expect("16 bytes");
        let hash = |bytes: &[u8]| match keyed {
            true => siphash24(id, bytes),
            false => hashlittle2(bytes),
        };
        let mut at = first_object(self.image);
        while at <= self.tail {
            if self.image[at] == DATA {
                let payload = self.hashed(at, 64);
                if self.word(at + 16) != hash(payload) || !matches!(name_length(payload), Some(1..))
                {
                    return true;
                }
            } else if self.image[at] == FIELD && self.word(at + 16) != hash(self.hashed(at, 40)) {
                return true;
            }
            at = next(self.image, at);
        }
        false
    }

    fn items_fault(&self, keyed: bool) -> bool {
        let mut cache = [(0usize, 0u64); 16_384];
        let mut at = first_object(self.image);
        while at <= self.tail {
            if self.image[at] == ENTRY {
                let mut xor_hash = 0;
                for item in self.image[at + 64..at + self.size(at)].chunks_exact(16) {
                    let data = u64_at(item, 0) as usize;
                    let hash = self.word(data + 16);
                    if u64_at(item, 8) != hash {
                        return true;
                    }
                    xor_hash ^= if keyed {
                        self.cached(&mut cache, data)
                    } else {
                        hash
                    };
                }
                if self.word(at + 56) != xor_hash {
                    return true;
                }
            }
            at = next(self.image, at);
        }
        false
    }

    #[inline(always)]
    fn cached(&self, cache: &mut [(usize, u64); 16_384], data: usize) -> u64 {
        let slot = match self.size(data) {
            ..=1023 => data / 64 % 8192,
            _ => 8192 + data / 1024 % 8192,
        };
        if cache[slot].0 != data {
            cache[slot] = (data, hashlittle2(self.hashed(data, 64)));
        }
        cache[slot].1
    }
}
