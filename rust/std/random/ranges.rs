//! Numbers of a range.
use super::Rng;
use std::ops::{Range, RangeInclusive};

/// What is drawn by a generator.
pub trait RngExt: Rng + Sized {
    /// Returns a number of a range, of which each is about as likely.
    ///
    /// # Panics
    ///
    /// If the range is empty.
    fn random_range<T, R: SampleRange<T>>(&mut self, range: R) -> T {
        range.draw(self)
    }
}

impl<G: Rng> RngExt for G {}

/// A range from which numbers are drawn.
pub trait SampleRange<T> {
    /// Draws a number of the range.
    fn draw(self, numbers: &mut impl Rng) -> T;
}

impl<T: SampleUniform> SampleRange<T> for Range<T> {
    fn draw(self, numbers: &mut impl Rng) -> T {
        assert!(self.start < self.end, "no number is in an empty range");
        T::draw_below(self.start, self.end, numbers)
    }
}

impl<T: SampleUniform> SampleRange<T> for RangeInclusive<T> {
    fn draw(self, numbers: &mut impl Rng) -> T {
        assert!(self.start() <= self.end(), "no number is in an empty range");
        let (low, high) = self.into_inner();
        T::draw_up_to(low, high, numbers)
    }
}

/// A type of numbers that are drawn from ranges.
pub trait SampleUniform: PartialOrd {
    /// Draws a number from `low` on that is less than `high`.
    fn draw_below(low: Self, high: Self, numbers: &mut impl Rng) -> Self;

    /// Draws a number from `low` on up to `high`.
    fn draw_up_to(low: Self, high: Self, numbers: &mut impl Rng) -> Self;
}

impl SampleUniform for u8 {
    fn draw_below(low: u8, high: u8, numbers: &mut impl Rng) -> u8 {
        u8::draw_up_to(low, high - 1, numbers)
    }

    fn draw_up_to(low: u8, high: u8, numbers: &mut impl Rng) -> u8 {
        match (high - low).checked_add(1) {
            Some(count) => low + narrow_below(count.into(), numbers) as u8,
            None => numbers.next_u32() as u8,
        }
    }
}

impl SampleUniform for u32 {
    fn draw_below(low: u32, high: u32, numbers: &mut impl Rng) -> u32 {
        u32::draw_up_to(low, high - 1, numbers)
    }

    fn draw_up_to(low: u32, high: u32, numbers: &mut impl Rng) -> u32 {
        match (high - low).checked_add(1) {
            Some(count) => low + narrow_below(count, numbers),
            None => numbers.next_u32(),
        }
    }
}

/// Where the end of the range has 32 bits, the numbers are those of `u32`.
impl SampleUniform for usize {
    fn draw_below(low: usize, high: usize, numbers: &mut impl Rng) -> usize {
        match u32::try_from(high) {
            Ok(high) => u32::draw_below(low as u32, high, numbers) as usize,
            Err(_) => low + wide_below((high - low) as u64, numbers) as usize,
        }
    }

    fn draw_up_to(low: usize, high: usize, numbers: &mut impl Rng) -> usize {
        if let Ok(high) = u32::try_from(high) {
            return u32::draw_up_to(low as u32, high, numbers) as usize;
        }
        match (high - low).checked_add(1) {
            Some(count) => low + wide_below(count as u64, numbers) as usize,
            None => numbers.next_u64() as usize,
        }
    }
}

/// Draws a number below `count`, by Canon's method: a fraction of 32 bits times `count`, rounded down. Where the next 32
/// bits of the fraction could change that, they are drawn too.
pub(super) fn narrow_below(count: u32, numbers: &mut impl Rng) -> u32 {
    let product = u64::from(numbers.next_u32()) * u64::from(count);
    let (whole, rest) = ((product >> 32) as u32, product as u32);
    if rest <= count.wrapping_neg() {
        return whole;
    }
    let next = (u64::from(numbers.next_u32()) * u64::from(count)) >> 32;
    whole + u32::from(rest.checked_add(next as u32).is_none())
}

/// The same with words of 64 bits.
fn wide_below(count: u64, numbers: &mut impl Rng) -> u64 {
    let product = u128::from(numbers.next_u64()) * u128::from(count);
    let (whole, rest) = ((product >> 64) as u64, product as u64);
    if rest <= count.wrapping_neg() {
        return whole;
    }
    let next = (u128::from(numbers.next_u64()) * u128::from(count)) >> 64;
    whole + u64::from(rest.checked_add(next as u64).is_none())
}
