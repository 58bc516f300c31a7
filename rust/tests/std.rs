//! What stands for Rattle's standard library: each collection against Rust's own, or a plain list, on operations that
//! are drawn by lot, and with each of its requests for memory refused.
#[allow(dead_code, unused_imports, unused_macros)]
#[path = "../std/mod.rs"]
mod rattle_std;

#[path = "std/hashed.rs"]
mod hashed;
#[path = "std/lists.rs"]
mod lists;
#[path = "std/numbers.rs"]
mod numbers;
#[path = "std/ordered.rs"]
mod ordered;
#[path = "std/refused.rs"]
mod refused;
mod refusing;

/// How many operations are drawn for each collection.
const OPERATIONS: u64 = 100_000;

/// Numbers that are drawn by a seed: Marsaglia's xorshift, which shares nothing with the generators that are tried.
struct Drawn(u64);

impl Drawn {
    /// The generator of a seed.
    fn of(seed: u64) -> Drawn {
        Drawn(seed.wrapping_mul(0x9E37_79B9_7F4A_7C15) | 1)
    }

    /// The next number below a bound.
    fn below(&mut self, bound: u64) -> u64 {
        self.0 ^= self.0 << 13;
        self.0 ^= self.0 >> 7;
        self.0 ^= self.0 << 17;
        (self.0 >> 11) % bound
    }
}
