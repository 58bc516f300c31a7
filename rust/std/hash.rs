//! Hashers without a secret. They stand for `FoldHasher` of Rattle's std.
//!
//! No map or set of the sources is iterated in an order that depends on hashes, so the hasher of keys needn't have the
//! numbers of Rattle's; it is a faster one. The benchmark prints hashes of texts, and takes `FoldHasher` for these, which
//! has them.
use std::hash::Hasher;

#[cfg(feature = "cli")]
mod fold;

#[cfg(feature = "cli")]
pub use fold::FoldHasher;

/// The golden ratio in 64 bits, by which hashes are multiplied.
const FACTOR: u64 = 0x9e37_79b9_7f4a_7c15;

/// Returns the lower half of a product combined with the upper one, so that each bit depends on all bits of both.
#[inline(always)]
fn folded_product(one: u64, other: u64) -> u64 {
    let product = u128::from(one) * u128::from(other);
    product as u64 ^ (product >> 64) as u64
}

/// A hasher for the keys of maps. It has no secret, so whoever chooses the keys can choose them to collide: only searches
/// use it, and whatever checks their answers keeps keys in order.
#[derive(Clone, Copy, Debug, Default)]
pub struct KeyHasher(u64);

impl KeyHasher {
    #[inline(always)]
    fn add(&mut self, number: u64) {
        self.0 = folded_product(self.0 ^ number, FACTOR) ^ 0x2545_f491_4f6c_dd1d;
    }
}

impl Hasher for KeyHasher {
    #[inline(always)]
    fn finish(&self) -> u64 {
        self.0
    }

    #[inline(always)]
    fn write(&mut self, bytes: &[u8]) {
        for part in bytes.chunks(8) {
            let mut eight = [0; 8];
            eight[..part.len()].copy_from_slice(part);
            self.add(u64::from_le_bytes(eight));
        }
    }

    #[inline(always)]
    fn write_u8(&mut self, number: u8) {
        self.add(number.into());
    }

    #[inline(always)]
    fn write_u32(&mut self, number: u32) {
        self.add(number.into());
    }

    #[inline(always)]
    fn write_u64(&mut self, number: u64) {
        self.add(number);
    }

    #[inline(always)]
    fn write_usize(&mut self, number: usize) {
        self.add(number as u64);
    }

    #[inline(always)]
    fn write_isize(&mut self, number: isize) {
        self.add(number as u64);
    }
}
