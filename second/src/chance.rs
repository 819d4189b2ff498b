//! Numbers that look random, for the tests of what was written from document 01 alone.

/// The state of the generator (splitmix64).
pub struct Chance(pub u64);

impl Chance {
    /// The next number.
    pub fn number(&mut self) -> u64 {
        self.0 = self.0.wrapping_add(0x9e37_79b9_7f4a_7c15);
        let mut z = self.0;
        z = (z ^ (z >> 30)).wrapping_mul(0xbf58_476d_1ce4_e5b9);
        z = (z ^ (z >> 27)).wrapping_mul(0x94d0_49bb_1331_11eb);
        z ^ (z >> 31)
    }

    /// The next seed.
    pub fn seed(&mut self) -> [u8; 16] {
        let mut seed = [0; 16];
        seed[..8].copy_from_slice(&self.number().to_le_bytes());
        seed[8..].copy_from_slice(&self.number().to_le_bytes());
        seed
    }

    /// The next string of so many bits.
    pub fn string(&mut self, bits: usize) -> Vec<bool> {
        (0..bits).map(|_| self.number() & 1 == 1).collect()
    }
}
