//! An error of any kind, for the benchmark and the fuzzer. It stands for Rattle's port of the crate `anyhow`.
use std::error;
use std::fmt;

/// An error that is a text. The memory for it can't be refused.
pub struct Error(String);

impl Error {
    /// Makes the error with this text.
    pub fn new(text: String) -> Error {
        Error(text)
    }
}

impl fmt::Debug for Error {
    fn fmt(&self, f: &mut fmt::Formatter<'_>) -> fmt::Result {
        f.write_str(&self.0)
    }
}

impl<E: error::Error> From<E> for Error {
    fn from(error: E) -> Error {
        Error(error.to_string())
    }
}

/// What a function returns that may fail in any way.
pub type Result<T, E = Error> = std::result::Result<T, E>;

/// Makes an error of the arguments of `format!`.
macro_rules! new_error {
    ($($parts:tt)+) => {
        $crate::rattle_std::anyhow::Error::new(::std::format!($($parts)+))
    };
}

/// Returns an error, made of the arguments of `format!`, unless a condition holds.
macro_rules! ensure_or_error {
    ($condition:expr, $($parts:tt)+) => {
        if !$condition {
            return Err($crate::rattle_std::anyhow::Error::new(::std::format!($($parts)+)));
        }
    };
}

pub(crate) use {ensure_or_error as ensure, new_error as anyhow};
