//! Numbers in digits without memory of the heap. It stands for Rattle's port of the crate `itoa`.

/// How many digits the greatest number has.
const MOST_DIGITS: usize = 20;

/// Room for a number in digits.
pub struct Buffer {
    digits: [u8; MOST_DIGITS],
}

/// A number that can be written in digits.
pub trait Integer: Copy {
    /// Returns the number.
    fn to_u64(self) -> u64;
}

impl Integer for u32 {
    #[inline]
    fn to_u64(self) -> u64 {
        self.into()
    }
}

impl Integer for u64 {
    #[inline]
    fn to_u64(self) -> u64 {
        self
    }
}

impl Integer for usize {
    #[inline]
    fn to_u64(self) -> u64 {
        self as u64
    }
}

impl Buffer {
    /// Makes room for one number at a time.
    #[inline]
    #[allow(clippy::new_without_default)]
    pub fn new() -> Buffer {
        Buffer { digits: [b'0'; MOST_DIGITS] }
    }

    /// Writes a number in digits, and returns them.
    #[inline]
    pub fn format<I: Integer>(&mut self, number: I) -> &str {
        let mut rest = number.to_u64();
        let mut place = MOST_DIGITS - 1;
        while rest >= 10 {
            self.digits[place] = b'0' + (rest % 10) as u8;
            rest /= 10;
            place -= 1;
        }
        self.digits[place] = b'0' + rest as u8;
        str::from_utf8(&self.digits[place..]).unwrap_or_default()
    }
}
