//! The refusals.
use core::fmt;

/// Why there is no answer.
#[derive(Debug, Clone, Copy, PartialEq, Eq, Hash)]
#[non_exhaustive]
pub enum Error {
    /// 1: the input is longer than any digest allows.
    TooLargeInput,
    /// 2: the input is shorter than the variant allows in this mode.
    TooSmallInput,
    /// 3: the third quartile is 0.
    BucketsAreThreeQuarterEmpty,
    /// 4: too few buckets are in use.
    BucketsAreHalfEmpty,
    /// 5: no code stands for that length.
    NoLengthCode,
    /// 6: there is no such variant.
    UnknownVariant,
    /// 7: the text has no room.
    ShortDestination,
    /// 8: the text has not the variant's size.
    TextSize,
    /// 9: the text does not begin `T1`, or has a character that is no capital digit.
    TextForm,
    /// 10: there is no such option.
    UnknownOption,
    /// 11: the quartiles do not rise, or the third is 0.
    Quartiles,
    /// 12: the digests are of different variants.
    UnlikeDigests,
    /// 19: a state that no bytes reach.
    UnreachableState,
    /// Any other number. No entry point gives one.
    Unlisted(u32),
}

impl Error {
    /// The number by which the library names the refusal.
    pub const fn number(self) -> u32 {
        match self {
            Self::TooLargeInput => 1,
            Self::TooSmallInput => 2,
            Self::BucketsAreThreeQuarterEmpty => 3,
            Self::BucketsAreHalfEmpty => 4,
            Self::NoLengthCode => 5,
            Self::UnknownVariant => 6,
            Self::ShortDestination => 7,
            Self::TextSize => 8,
            Self::TextForm => 9,
            Self::UnknownOption => 10,
            Self::Quartiles => 11,
            Self::UnlikeDigests => 12,
            Self::UnreachableState => 19,
            Self::Unlisted(number) => number,
        }
    }

    /// What an answer's number says: 0 is done, all others are refusals.
    pub const fn check(number: u32) -> Result<(), Self> {
        Err(match number {
            0 => return Ok(()),
            1 => Self::TooLargeInput,
            2 => Self::TooSmallInput,
            3 => Self::BucketsAreThreeQuarterEmpty,
            4 => Self::BucketsAreHalfEmpty,
            5 => Self::NoLengthCode,
            6 => Self::UnknownVariant,
            7 => Self::ShortDestination,
            8 => Self::TextSize,
            9 => Self::TextForm,
            10 => Self::UnknownOption,
            11 => Self::Quartiles,
            12 => Self::UnlikeDigests,
            19 => Self::UnreachableState,
            other => Self::Unlisted(other),
        })
    }
}

impl fmt::Display for Error {
    fn fmt(&self, to: &mut fmt::Formatter<'_>) -> fmt::Result {
        to.write_str(match self {
            Self::TooLargeInput => "the input is too long",
            Self::TooSmallInput => "the input is too short",
            Self::BucketsAreThreeQuarterEmpty => "the third quartile of the buckets is 0",
            Self::BucketsAreHalfEmpty => "too few buckets are in use",
            Self::NoLengthCode => "no code stands for that length",
            Self::UnknownVariant => "there is no variant with that number of buckets",
            Self::ShortDestination => "the destination is shorter than the text",
            Self::TextSize => "the text is not of the variant's size",
            Self::TextForm => "the text does not begin T1, or has a character other than 0-9 and A-F",
            Self::UnknownOption => "the option number has an unknown bit",
            Self::Quartiles => "the quartiles do not rise, or the third is 0",
            Self::UnlikeDigests => "the digests are of different variants",
            Self::UnreachableState => "no bytes lead to this state",
            Self::Unlisted(number) => return write!(to, "answer {number}, which is not listed"),
        })
    }
}

impl core::error::Error for Error {}
