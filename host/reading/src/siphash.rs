//! SipHash-2-4, from "SipHash: a fast short-input PRF" by Aumasson and Bernstein (2012).
//!
//! The names `v0` to `v3`, `m` and `sipround` are the paper's.

/// The 64-bit tag of `bytes` under the 128-bit `key`.
#[inline]
pub fn siphash24(key: &[u8; 16], bytes: &[u8]) -> u64 {
    let key = u128::from_le_bytes(*key);
    let (k0, k1) = (key as u64, (key >> 64) as u64);
    // The constants spell "somepseudorandomlygeneratedbytes".
    let mut state = State {
        v0: k0 ^ 0x736f6d6570736575,
        v1: k1 ^ 0x646f72616e646f6d,
        v2: k0 ^ 0x6c7967656e657261,
        v3: k1 ^ 0x7465646279746573,
    };

    let (blocks, tail) = bytes.as_chunks::<8>();
    for block in blocks {
        state.compress(u64::from_le_bytes(*block));
    }

    // There is always one more word: what is left over, zeros, and as the top byte the length
    // modulo 256.
    let length = (bytes.len() as u64) << 56;
    let rest = tail
        .iter()
        .rev()
        .fold(0, |m, &byte| m << 8 | u64::from(byte));
    state.compress(length | rest);

    state.finalize()
}

struct State {
    v0: u64,
    v1: u64,
    v2: u64,
    v3: u64,
}

impl State {
    /// Takes in one word with the 2 rounds of SipHash-2-4.
    #[inline(always)]
    fn compress(&mut self, m: u64) {
        self.v3 ^= m;
        self.sipround();
        self.sipround();
        self.v0 ^= m;
    }

    /// Closes with the 4 rounds of SipHash-2-4.
    #[inline(always)]
    fn finalize(mut self) -> u64 {
        self.v2 ^= 0xff;
        self.sipround();
        self.sipround();
        self.sipround();
        self.sipround();
        self.v0 ^ self.v1 ^ self.v2 ^ self.v3
    }

    /// In the paper's order, two by two: the lines of a pair don't wait for each other.
    #[inline(always)]
    fn sipround(&mut self) {
        let State { v0, v1, v2, v3 } = self;

        *v0 = v0.wrapping_add(*v1);
        *v2 = v2.wrapping_add(*v3);
        *v1 = v1.rotate_left(13) ^ *v0;
        *v3 = v3.rotate_left(16) ^ *v2;
        *v0 = v0.rotate_left(32);

        *v2 = v2.wrapping_add(*v1);
        *v0 = v0.wrapping_add(*v3);
        *v1 = v1.rotate_left(17) ^ *v2;
        *v3 = v3.rotate_left(21) ^ *v0;
        *v2 = v2.rotate_left(32);
    }
}

#[cfg(test)]
mod tests {
    use super::siphash24;
    use std::hash::Hasher;

    /// The reference vectors' key, 00 to 0f.
    const KEY: [u8; 16] = [0, 1, 2, 3, 4, 5, 6, 7, 8, 9, 10, 11, 12, 13, 14, 15];

    /// The reference vectors' input of this length, 00 upwards.
    fn input(length: u8) -> Vec<u8> {
        (0..length).collect()
    }

    #[test]
    fn published_values() {
        let published = [
            (0, 0x726fdb47dd0e0e31),
            (1, 0x74f839c593dc67fd),
            (2, 0x0d6c8009d9a94f5a),
            (3, 0x85676696d7fb7e2d),
            // The worked example of the paper's appendix.
            (15, 0xa129ca6149be45e5),
            (63, 0x958a324ceb064572),
        ];
        for (length, tag) in published {
            assert_eq!(siphash24(&KEY, &input(length)), tag, "length {length}");
        }
    }

    /// The standard library's `SipHasher` is SipHash-2-4 too; it is deprecated, but only in favour
    /// of a hasher whose algorithm is left open.
    #[test]
    #[allow(deprecated)]
    fn all_reference_vectors_as_the_standard_library_has_them() {
        for length in 0..64 {
            let mut standard =
                std::hash::SipHasher::new_with_keys(0x0706050403020100, 0x0f0e0d0c0b0a0908);
            standard.write(&input(length));
            assert_eq!(
                siphash24(&KEY, &input(length)),
                standard.finish(),
                "length {length}"
            );
        }
    }
}
