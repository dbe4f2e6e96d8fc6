//! Random bytes and numbers from a seed (splitmix64), the same ones for the same seed.

use std::env;

/// The seed that is used where KUMIROVE_SEED names none.
const DEFAULT_SEED: u64 = 20_240_607;

/// The seed of this run: the decimal number in KUMIROVE_SEED, or the default.
pub fn seed() -> Result<u64, String> {
    match env::var("KUMIROVE_SEED") {
        Err(env::VarError::NotPresent) => Ok(DEFAULT_SEED),
        Ok(text) => text.parse().map_err(|_| format!("KUMIROVE_SEED is not a decimal number below 2^64: {text}")),
        Err(fault) => Err(format!("KUMIROVE_SEED: {fault}")),
    }
}

/// A source of random numbers.
pub struct Random(u64);

impl Random {
    /// A source of its own for each pair of seed and stream.
    pub fn new(seed: u64, stream: u64) -> Random {
        Random(seed ^ stream.wrapping_mul(0xd1b5_4a32_d192_ed03))
    }

    /// The next 64 random bits.
    pub fn next(&mut self) -> u64 {
        self.0 = self.0.wrapping_add(0x9e37_79b9_7f4a_7c15);
        let a = (self.0 ^ (self.0 >> 30)).wrapping_mul(0xbf58_476d_1ce4_e5b9);
        let b = (a ^ (a >> 27)).wrapping_mul(0x94d0_49bb_1331_11eb);
        b ^ (b >> 31)
    }

    /// A random number below n, which is not 0.
    pub fn below(&mut self, n: u64) -> u64 {
        self.next() % n
    }

    /// Overwrites every byte of the slice with a random one.
    pub fn fill(&mut self, bytes: &mut [u8]) {
        for chunk in bytes.chunks_mut(8) {
            let word = self.next().to_le_bytes();
            chunk.copy_from_slice(&word[..chunk.len()]);
        }
    }

    /// So many random bytes.
    pub fn bytes(&mut self, count: usize) -> Vec<u8> {
        let mut bytes = vec![0; count];
        self.fill(&mut bytes);
        bytes
    }
}
