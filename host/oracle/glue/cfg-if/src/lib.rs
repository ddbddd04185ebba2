//! Glue: `cfg_if!`, which keeps the first branch whose condition holds.
#![no_std]

/// Keeps the tokens of the first branch whose condition holds.
///
/// The list before the `;` has the conditions of the branches that were passed: a branch stays only where none of them holds.
#[macro_export]
macro_rules! cfg_if {
    (@from [$($passed:meta),*]; if #[cfg($now:meta)] { $($kept:tt)* } else $($more:tt)*) => {
        #[cfg(all($now, not(any($($passed),*))))]
        $crate::cfg_if! { @keep $($kept)* }
        $crate::cfg_if! { @from [$($passed,)* $now]; $($more)* }
    };
    (@from [$($passed:meta),*]; if #[cfg($now:meta)] { $($kept:tt)* }) => {
        #[cfg(all($now, not(any($($passed),*))))]
        $crate::cfg_if! { @keep $($kept)* }
    };
    (@from [$($passed:meta),*]; { $($kept:tt)* }) => {
        #[cfg(not(any($($passed),*)))]
        $crate::cfg_if! { @keep $($kept)* }
    };
    (@keep $($kept:tt)*) => { $($kept)* };
    (if $($chain:tt)*) => { $crate::cfg_if! { @from []; if $($chain)* } };
}
