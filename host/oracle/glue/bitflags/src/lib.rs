//! Glue: sets of named bits in one integer, as far as fast-tlsh's options use them.
#![no_std]

/// Declares such sets.
#[macro_export]
macro_rules! bitflags {
    () => {};
    (
        $(#[$about:meta])*
        $seen:vis struct $Set:ident: $Bits:ty {
            $($(#[$about_one:meta])* const $ONE:ident = $bit:expr;)*
        }
        $($others:tt)*
    ) => {
        $(#[$about])*
        $seen struct $Set($Bits);

        #[allow(dead_code)]
        impl $Set {
            $($(#[$about_one])* $seen const $ONE: Self = Self($bit);)*

            $seen const fn empty() -> Self {
                Self(0)
            }
            $seen const fn is_empty(&self) -> bool {
                self.0 == 0
            }
            $seen const fn contains(&self, all: Self) -> bool {
                !self.0 & all.0 == 0
            }
            $seen const fn intersects(&self, some: Self) -> bool {
                self.0 & some.0 != 0
            }
            $seen fn set(&mut self, which: Self, on: bool) {
                self.0 = if on { self.0 | which.0 } else { self.0 & !which.0 };
            }
        }

        impl ::core::ops::BitOr for $Set {
            type Output = Self;
            fn bitor(self, other: Self) -> Self {
                Self(self.0 | other.0)
            }
        }

        $crate::bitflags! { $($others)* }
    };
}
