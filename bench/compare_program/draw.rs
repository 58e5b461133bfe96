//! Numbers that a seed gives.
use std::hash::{BuildHasher, Hasher};

/// The generator `xorshift64`.
pub struct Draw(u64);

impl Draw {
    pub fn new(seed: u64) -> Draw {
        Draw(seed.wrapping_mul(0x9E37_79B9_7F4A_7C15) | 1)
    }

    pub fn below(&mut self, n: u64) -> u64 {
        self.0 ^= self.0 << 13;
        self.0 ^= self.0 >> 7;
        self.0 ^= self.0 << 17;
        (self.0 >> 11) % n
    }
}

/// A hasher with 37 hashes, so that keys collide.
pub struct FewHashes(u64);

impl Hasher for FewHashes {
    fn finish(&self) -> u64 {
        (self.0 % 37).wrapping_mul(0x9E37_79B9_7F4A_7C15)
    }

    fn write(&mut self, bytes: &[u8]) {
        for byte in bytes {
            self.0 = self.0.wrapping_mul(31).wrapping_add(u64::from(*byte));
        }
    }
}

#[derive(Clone, Default)]
pub struct Build;

impl BuildHasher for Build {
    type Hasher = FewHashes;

    fn build_hasher(&self) -> FewHashes {
        FewHashes(7)
    }
}
