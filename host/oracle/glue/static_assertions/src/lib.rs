//! Glue: two assertions that are decided when the crate is compiled.
#![no_std]

/// The build fails unless the expression is true.
#[macro_export]
macro_rules! const_assert {
    ($holds:expr) => {
        const _: () = assert!($holds);
    };
}

/// The build fails unless both are equal.
#[macro_export]
macro_rules! const_assert_eq {
    ($left:expr, $right:expr) => {
        const _: () = assert!($left == $right);
    };
}
