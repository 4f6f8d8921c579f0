//! A small generator (splitmix64), so that no crate from outside is needed and every run is the same.
use crate::ffi::{PAGE, PIECE};

pub struct Random(pub u64);

impl Random {
    pub fn next(&mut self) -> u64 {
        self.0 = self.0.wrapping_add(0x9E37_79B9_7F4A_7C15);
        let mut z = self.0;
        z = (z ^ (z >> 30)).wrapping_mul(0xBF58_476D_1CE4_E5B9);
        z = (z ^ (z >> 27)).wrapping_mul(0x94D0_49BB_1331_11EB);
        z ^ (z >> 31)
    }

    pub fn below(&mut self, n: u64) -> u64 {
        self.next() % n
    }

    /// Whether something that happens one time in n happens now.
    pub fn one_in(&mut self, n: u64) -> bool {
        self.below(n) == 0
    }

    pub fn fill(&mut self, bytes: &mut [u8]) {
        for chunk in bytes.chunks_mut(8) {
            let word = self.next().to_le_bytes();
            chunk.copy_from_slice(&word[..chunk.len()]);
        }
    }

    /// Turns over one bit in each piece of a page.
    pub fn turn_bits(&mut self, page: &mut [u8; PAGE]) {
        for piece in page.chunks_mut(PIECE) {
            let bit = self.below(8 * PIECE as u64) as usize;
            piece[bit / 8] ^= 1 << (bit % 8);
        }
    }
}

/// A seed made of several numbers.
pub fn mix(parts: &[u64]) -> u64 {
    parts.iter().fold(0, |seed, part| Random(seed ^ part).next())
}
