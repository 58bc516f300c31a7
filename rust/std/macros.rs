//! Macros that take the allocator or the runtime first. They stand for Rattle's macros of the same names, `vec!`,
//! `format!` and `println!`, whose first argument Rust's don't know.

/// A vector of `count` times the same value, or of these items: Rattle's `vec![in alloc; ..]`. It is an error if memory
/// is refused.
macro_rules! vec_in {
    ($alloc:expr; $value:expr; $count:expr) => {
        $crate::rattle_std::Vec::filled($alloc, $value, $count)
    };
    ($alloc:expr; $($item:expr),+ $(,)?) => {
        $crate::rattle_std::Vec::from_array($alloc, [$($item),+])
    };
}

/// The text of these arguments: Rattle's `format!(in alloc; ..)`. It is an error if memory is refused.
macro_rules! format_in {
    ($alloc:expr; $($parts:tt)+) => {
        $crate::rattle_std::String::formatted($alloc, ::core::format_args!($($parts)+))
    };
}

/// Prints a line on standard output: Rattle's `println!(rt; ..)`.
#[cfg(feature = "cli")]
macro_rules! println_rt {
    ($rt:expr; $($parts:tt)+) => {
        $crate::rattle_std::io::print_line(&$rt, ::core::format_args!($($parts)+))
    };
}

#[cfg(feature = "cli")]
pub(crate) use println_rt;
pub(crate) use {format_in, vec_in};
