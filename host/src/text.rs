//! The text of a digest, held in place.
use core::{fmt, ops, str};

use crate::{Error, Variant};

/// The size of the longest text.
const MOST: usize = Variant::Long.text_len();

/// The text of a digest. It derefs to `str` and lives where it stands, without the heap.
#[derive(Clone, Copy, PartialEq, Eq, PartialOrd, Ord, Hash)]
pub struct Text {
    /// The characters, then zeros.
    bytes: [u8; MOST],
    variant: Variant,
}

impl Text {
    /// The text that `fill` writes to the room which it is lent, unless its answer is a refusal.
    pub(crate) fn filled(variant: Variant, fill: impl FnOnce(&mut [u8]) -> u32) -> Result<Self, Error> {
        let mut bytes = [0; MOST];
        Error::check(fill(&mut bytes[..variant.text_len()]))?;
        Ok(Self { bytes, variant })
    }

    /// The variant.
    pub const fn variant(&self) -> Variant {
        self.variant
    }

    /// The characters as bytes.
    pub fn as_bytes(&self) -> &[u8] {
        &self.bytes[..self.variant.text_len()]
    }

    /// The characters.
    pub fn as_str(&self) -> &str {
        str::from_utf8(self.as_bytes()).expect("the library writes T1 and hexadecimal digits")
    }
}

impl ops::Deref for Text {
    type Target = str;
    fn deref(&self) -> &str {
        self.as_str()
    }
}

impl AsRef<str> for Text {
    fn as_ref(&self) -> &str {
        self.as_str()
    }
}

impl AsRef<[u8]> for Text {
    fn as_ref(&self) -> &[u8] {
        self.as_bytes()
    }
}

impl fmt::Display for Text {
    fn fmt(&self, to: &mut fmt::Formatter<'_>) -> fmt::Result {
        to.pad(self)
    }
}

impl fmt::Debug for Text {
    fn fmt(&self, to: &mut fmt::Formatter<'_>) -> fmt::Result {
        fmt::Debug::fmt(self.as_str(), to)
    }
}
