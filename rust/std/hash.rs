//! The hashers: Rust's own traits, and the hasher of Rattle's std with its fixed seed.
pub use core::hash::{BuildHasher, BuildHasherDefault, Hash, Hasher};
#[cfg(feature = "std")]
pub use std::hash::RandomState;

/// The default builder of hashers: std's, with a random seed.
#[cfg(feature = "std")]
pub type DefaultHashBuilder = RandomState;

/// Without `std` there is no default builder. The maps' modules import this name, no value has this type, and users cannot name it.
#[cfg(not(feature = "std"))]
pub enum DefaultHashBuilder {}

/// A fast hasher with a fixed seed, which does not protect against keys that are chosen to have equal hashes.
#[derive(Debug)]
pub struct FoldHasher(u64);

impl Default for FoldHasher {
    fn default() -> FoldHasher {
        FoldHasher(0x243f_6a88_85a3_08d3)
    }
}

const MULTIPLIER: u64 = 0x9e37_79b9_7f4a_7c15;

fn folded_multiply(a: u64, b: u64) -> u64 {
    let product = a as u128 * b as u128;
    product as u64 ^ (product >> 64) as u64
}

fn read_u32(bytes: &[u8], at: usize) -> u64 {
    u32::from_le_bytes(bytes[at..at + 4].try_into().expect("four bytes")) as u64
}

fn read_u64(bytes: &[u8], at: usize) -> u64 {
    u64::from_le_bytes(bytes[at..at + 8].try_into().expect("eight bytes"))
}

/// Reads up to eight bytes as one number, by reads that may overlap.
fn read_short(bytes: &[u8]) -> u64 {
    match bytes.len() {
        0 => 0,
        len @ 1..4 => bytes[0] as u64 | (bytes[len / 2] as u64) << 8 | (bytes[len - 1] as u64) << 16,
        len => read_u32(bytes, 0) | read_u32(bytes, len - 4) << 32,
    }
}

impl Hasher for FoldHasher {
    fn finish(&self) -> u64 {
        self.0
    }

    fn write(&mut self, bytes: &[u8]) {
        let len = bytes.len();
        if len <= 8 {
            self.0 = folded_multiply(self.0 ^ read_short(bytes), MULTIPLIER ^ (2 * len as u64));
            return;
        }
        let mut state = self.0.wrapping_add(len as u64);
        let mut at = 0;
        while len - at > 16 {
            state = folded_multiply(read_u64(bytes, at) ^ state, read_u64(bytes, at + 8) ^ MULTIPLIER);
            at += 16;
        }
        self.0 = folded_multiply(read_u64(bytes, len.saturating_sub(16)) ^ state, read_u64(bytes, len - 8) ^ MULTIPLIER);
    }

    fn write_u64(&mut self, key: u64) {
        // Eight bytes are read as two halves of four.
        self.0 = folded_multiply(self.0 ^ key, MULTIPLIER ^ 16);
    }
}
