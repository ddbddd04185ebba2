//! The three variants.

/// A variant, which is a number of buckets.
#[derive(Debug, Clone, Copy, PartialEq, Eq, PartialOrd, Ord, Hash, Default)]
pub enum Variant {
    /// 48 buckets, a text of 32 characters.
    Short,
    /// 128 buckets, a text of 72 characters.
    #[default]
    Normal,
    /// 256 buckets, a text of 136 characters.
    Long,
}

impl Variant {
    /// All of them, the smallest first.
    pub const ALL: [Self; 3] = [Self::Short, Self::Normal, Self::Long];

    /// The number of buckets, by which the library knows the variant.
    pub const fn number(self) -> u32 {
        match self {
            Self::Short => 48,
            Self::Normal => 128,
            Self::Long => 256,
        }
    }

    /// The variant with that number of buckets.
    pub const fn from_number(number: u32) -> Option<Self> {
        match number {
            48 => Some(Self::Short),
            128 => Some(Self::Normal),
            256 => Some(Self::Long),
            _ => None,
        }
    }

    /// The size of a text: `T1`, then two characters for each byte of checksum, length code, ratios and body.
    pub const fn text_len(self) -> usize {
        2 + 2 * (3 + self.number() as usize / 4)
    }
}
