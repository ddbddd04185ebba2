//! The options of a digest.
use crate::Error;

/// What a digest allows and how it takes its ratios.
///
/// [`Options::new`] has none set, as `GeneratorOptions::new()` of fast-tlsh. By that crate's documents the official tool has had
/// other defaults in its time: the conservative least lengths were its default once and are no longer, and it takes ratios in
/// single precision up to version 4.12.0 and in whole numbers from 4.12.1 on.
///
/// ```
/// use saltcurtain::Options;
///
/// assert_eq!(Options::new().small(true).quarter(true).number(), 20);
/// ```
#[derive(Debug, Clone, Copy, PartialEq, Eq, Hash, Default)]
pub struct Options(u32);

impl Options {
    /// No option set.
    pub const fn new() -> Self {
        Self(0)
    }

    /// Refuse normal and long digests below 128 bytes.
    pub const fn conservative(self, on: bool) -> Self {
        self.with(1, on)
    }

    /// Take the ratios in whole numbers and not in single precision.
    pub const fn integer_ratios(self, on: bool) -> Self {
        self.with(2, on)
    }

    /// Give digests of inputs below the least length too.
    pub const fn small(self, on: bool) -> Self {
        self.with(4, on)
    }

    /// Give digests also where fewer than 18 of 48, 65 of 128 or 129 of 256 buckets are in use (refusal 4).
    pub const fn half(self, on: bool) -> Self {
        self.with(8, on)
    }

    /// Give digests also where the third quartile of the buckets is 0 (refusal 3), and where too few are in use (refusal 4).
    pub const fn quarter(self, on: bool) -> Self {
        self.with(16, on)
    }

    /// The option number: 1 conservative, 2 integer ratios, 4 small, 8 half, 16 quarter, added.
    pub const fn number(self) -> u32 {
        self.0
    }

    /// The options of a number from 0 to 31.
    pub const fn from_number(number: u32) -> Result<Self, Error> {
        if number < 32 { Ok(Self(number)) } else { Err(Error::UnknownOption) }
    }

    const fn with(self, bit: u32, on: bool) -> Self {
        Self(if on { self.0 | bit } else { self.0 & !bit })
    }
}
