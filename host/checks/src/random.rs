//! A small pseudo-random generator (splitmix64), so that tests and measurements have the same
//! inputs every time.

pub struct Random {
    state: u64,
}

impl Random {
    pub fn new(seed: u64) -> Random {
        Random { state: seed }
    }

    /// The next 64 bits.
    pub fn word(&mut self) -> u64 {
        self.state = self.state.wrapping_add(0x9e3779b97f4a7c15);
        let mut z = self.state;
        z = (z ^ (z >> 30)).wrapping_mul(0xbf58476d1ce4e5b9);
        z = (z ^ (z >> 27)).wrapping_mul(0x94d049bb133111eb);
        z ^ (z >> 31)
    }

    /// A number less than `bound`, which must not be 0. A remainder slightly prefers low numbers,
    /// which is no harm here.
    pub fn below(&mut self, bound: usize) -> usize {
        (self.word() % bound as u64) as usize
    }

    pub fn fill(&mut self, bytes: &mut [u8]) {
        for chunk in bytes.chunks_mut(8) {
            chunk.copy_from_slice(&self.word().to_le_bytes()[..chunk.len()]);
        }
    }

    /// An array, for keys and identifiers.
    pub fn array<const N: usize>(&mut self) -> [u8; N] {
        let mut bytes = [0; N];
        self.fill(&mut bytes);
        bytes
    }

    pub fn bytes(&mut self, length: usize) -> Vec<u8> {
        let mut bytes = vec![0; length];
        self.fill(&mut bytes);
        bytes
    }
}

#[cfg(test)]
mod tests {
    use super::Random;

    #[test]
    fn first_words_of_seed_0() {
        let mut random = Random::new(0);
        assert_eq!(random.word(), 0xe220a8397b1dcdaf);
        assert_eq!(random.word(), 0x6e789e6aa1b965f4);
    }

    #[test]
    fn a_fill_is_the_words_in_little_endian_order() {
        let bytes = Random::new(7).bytes(11);
        let mut random = Random::new(7);
        assert_eq!(bytes[..8], random.word().to_le_bytes());
        assert_eq!(bytes[8..], random.word().to_le_bytes()[..3]);
    }
}
