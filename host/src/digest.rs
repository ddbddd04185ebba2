//! A digest that was read, held in place.
use crate::{Error, Variant, raw};

/// A digest, read from its text once and compared as often as it takes. It lives where it stands, without the heap. Two are equal
/// exactly where their texts are.
///
/// ```
/// use saltcurtain::{Digest, Error, Options, Variant, digest};
///
/// let own = Digest::read(Variant::Normal, "T14A90024954691E114404124180D942C1450F8423775ADE1510211420456593621A8173")?;
/// let text = digest(Variant::Normal, Options::new(), b"Lovak won the squad prize cup for sixty big jumps!")?;
/// assert_eq!(own.distance(&Digest::read(text.variant(), text)?)?, 6);
/// assert_eq!(own.distance(&own), Ok(0));
/// # Ok::<(), Error>(())
/// ```
#[derive(Debug, Clone, Copy, PartialEq, Eq, Hash)]
pub struct Digest {
    record: raw::Digest,
    variant: Variant,
}

impl Digest {
    /// The digest of a text.
    pub fn read(variant: Variant, text: impl AsRef<[u8]>) -> Result<Self, Error> {
        let raw::Read { number, digest } = raw::read(variant.number(), text.as_ref());
        Error::check(number).map(|()| Self { record: digest, variant })
    }

    /// The variant.
    pub const fn variant(&self) -> Variant {
        self.variant
    }

    /// The distance of two digests of one variant: 0 for the same digest, and the greater the less alike they are. At most 1,993 in
    /// the short variant, 2,473 in the normal and 3,241 in the long one.
    pub fn distance(&self, other: &Self) -> Result<u32, Error> {
        let raw::Distance { number, distance } = raw::distance_read(&self.record, &other.record);
        Error::check(number).map(|()| distance)
    }
}
