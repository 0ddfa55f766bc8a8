//! The hash of archived maps as a hasher of std.

use std::hash::{BuildHasherDefault, Hasher};

pub const SEED: u64 = 0x517c_c1b7_2722_0a95;

/// Rotates, xors and multiplies, a word at a time.
#[derive(Default)]
pub struct FxHasher(u64);

pub type BuildFx = BuildHasherDefault<FxHasher>;

impl FxHasher {
    #[inline]
    fn feed(&mut self, word: u64) {
        self.0 = (self.0.rotate_left(5) ^ word).wrapping_mul(SEED);
    }
}

impl Hasher for FxHasher {
    #[inline]
    fn write(&mut self, mut bytes: &[u8]) {
        while let Some((word, rest)) = bytes.split_first_chunk::<8>() {
            self.feed(u64::from_le_bytes(*word));
            bytes = rest;
        }
        if let Some((word, rest)) = bytes.split_first_chunk::<4>() {
            self.feed(u64::from(u32::from_le_bytes(*word)));
            bytes = rest;
        }
        if let Some((word, rest)) = bytes.split_first_chunk::<2>() {
            self.feed(u64::from(u16::from_le_bytes(*word)));
            bytes = rest;
        }
        if let Some(byte) = bytes.first() {
            self.feed(u64::from(*byte));
        }
    }

    #[inline]
    fn write_u8(&mut self, number: u8) {
        self.feed(u64::from(number));
    }

    #[inline]
    fn write_u32(&mut self, number: u32) {
        self.feed(u64::from(number));
    }

    #[inline]
    fn finish(&self) -> u64 {
        self.0
    }
}
