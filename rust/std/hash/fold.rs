//! The hasher whose numbers are those of Rattle's `FoldHasher`.
use super::{FACTOR, folded_product};
use std::hash::Hasher;

/// A fast hasher without a secret. Each call of `write` takes its bytes by pairs of words of eight bytes, the last of
/// which may overlap the one before.
#[derive(Clone, Copy, Debug)]
pub struct FoldHasher {
    state: u64,
}

impl Default for FoldHasher {
    fn default() -> FoldHasher {
        // The first digits of pi behind the point.
        FoldHasher { state: 0x243f_6a88_85a3_08d3 }
    }
}

impl Hasher for FoldHasher {
    fn finish(&self) -> u64 {
        self.state
    }

    fn write(&mut self, bytes: &[u8]) {
        let len = bytes.len() as u64;
        if len <= 8 {
            self.state = folded_product(self.state ^ short_word(bytes), FACTOR ^ (2 * len));
            return;
        }
        let (mut state, mut rest) = (self.state.wrapping_add(len), bytes);
        while rest.len() > 16 {
            state = folded_product(word(rest, 0) ^ state, word(rest, 8) ^ FACTOR);
            rest = &rest[16..];
        }
        let (first, second) = (bytes.len().saturating_sub(16), bytes.len() - 8);
        self.state = folded_product(word(bytes, first) ^ state, word(bytes, second) ^ FACTOR);
    }
}

/// Returns the eight bytes from a place on as a number, the least byte first.
fn word(bytes: &[u8], place: usize) -> u64 {
    let mut eight = [0; 8];
    eight.copy_from_slice(&bytes[place..place + 8]);
    u64::from_le_bytes(eight)
}

/// Returns at most eight bytes as a number. Its parts overlap if the bytes are fewer than its parts have.
fn short_word(bytes: &[u8]) -> u64 {
    match (bytes.first_chunk::<4>(), bytes.last_chunk::<4>(), bytes) {
        (Some(first), Some(last), _) => {
            u64::from(u32::from_le_bytes(*first)) | u64::from(u32::from_le_bytes(*last)) << 32
        }
        (_, _, [first, .., last]) => {
            u64::from(*first) | u64::from(bytes[bytes.len() / 2]) << 8 | u64::from(*last) << 16
        }
        (_, _, [only]) => u64::from(*only) * 0x1_0101,
        _ => 0,
    }
}
