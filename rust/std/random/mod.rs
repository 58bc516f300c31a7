//! Pseudo-random numbers. They stand for Rattle's ports of the crates `rand_core`, `rand_pcg` and `rand` 0.10, and are
//! the same numbers for the same seed. Nothing here takes memory.

#[cfg(feature = "cli")]
mod ranges;
#[cfg(feature = "cli")]
mod shuffle;

#[cfg(feature = "cli")]
pub use ranges::RngExt;
#[cfg(feature = "cli")]
pub use shuffle::SliceRandom;

/// A generator of numbers.
pub trait Rng {
    /// Returns the next 32 bits.
    fn next_u32(&mut self) -> u32;

    /// Returns the next 64 bits, of which the first 32 are the lower ones.
    #[cfg(feature = "cli")]
    fn next_u64(&mut self) -> u64 {
        u64::from(self.next_u32()) | u64::from(self.next_u32()) << 32
    }
}

/// O'Neill's generator PCG-XSH-RR, with 64 bits of state and 32 bits of output.
#[derive(Clone, Debug)]
pub struct Pcg32 {
    state: u64,
    increment: u64,
}

/// By what the state is multiplied at each step.
const MULTIPLIER: u64 = 6_364_136_223_846_793_005;

impl Pcg32 {
    /// Makes the generator of a seed and of the number of a stream, as the reference implementation does.
    pub fn new(seed: u64, stream: u64) -> Pcg32 {
        let increment = (stream << 1) | 1;
        let mut made = Pcg32 { state: seed.wrapping_add(increment), increment };
        made.step();
        made
    }

    #[inline]
    fn step(&mut self) {
        self.state = self.state.wrapping_mul(MULTIPLIER).wrapping_add(self.increment);
    }
}

impl Rng for Pcg32 {
    #[inline]
    fn next_u32(&mut self) -> u32 {
        let state = self.state;
        self.step();
        let shifted = (((state >> 18) ^ state) >> 27) as u32;
        shifted.rotate_right((state >> 59) as u32)
    }
}
