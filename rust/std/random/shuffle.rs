//! Lists in a random order.
use super::Rng;
use super::ranges::{RngExt, narrow_below};

/// What is drawn from a list.
pub trait SliceRandom {
    /// Puts the items in an order of which each is about as likely.
    fn shuffle<G: Rng>(&mut self, numbers: &mut G);
}

impl<T> SliceRandom for [T] {
    fn shuffle<G: Rng>(&mut self, numbers: &mut G) {
        let mut places = Places::default();
        for last in 0..self.len() {
            let place = match u32::try_from(self.len()) {
                Ok(len) if len < u32::MAX => places.next(last as u32 + 1, numbers) as usize,
                _ => numbers.random_range(0..last + 1),
            };
            self.swap(last, place);
        }
    }
}

/// Draws numbers below bounds that rise by one. A number below the product of several bounds gives one for each of them.
#[derive(Default)]
struct Places {
    // What is left of the number that was drawn last, and of how many bounds it is below the product.
    drawn: u32,
    left: u32,
}

impl Places {
    /// Returns a number below the next bound, which is given.
    fn next(&mut self, bound: u32, numbers: &mut impl Rng) -> u32 {
        if self.left == 0 && bound > 1 {
            let (product, count) = product_from(bound);
            (self.drawn, self.left) = (narrow_below(product, numbers), count);
        }
        self.left = self.left.saturating_sub(1);
        if self.left == 0 {
            return self.drawn;
        }
        let place = self.drawn % bound;
        self.drawn /= bound;
        place
    }
}

/// Returns the product of as many numbers from this one on as 32 bits have, and how many these are.
fn product_from(first: u32) -> (u32, u32) {
    let (mut product, mut count) = (first, 1);
    while let Some(longer) = (first.checked_add(count)).and_then(|next| product.checked_mul(next)) {
        (product, count) = (longer, count + 1);
    }
    (product, count)
}
