//! TLSH fuzzy hashes by Saltcurtain, a library whose every function is proved to give exactly the answer that its definitions name.
//!
//! This crate is the safe side for Rust: types instead of numbers, slices instead of pointers, no heap, no `std`. All work is
//! done by the static library; [`raw`] has its eight entry points as they are, on numbers and slices.
//!
//! ```
//! use saltcurtain::{Error, Options, Variant, digest};
//!
//! let text = digest(Variant::Normal, Options::new(), b"Lovak won the squad prize cup for sixty big jumps.")?;
//! assert_eq!(&*text, "T14A90024954691E114404124180D942C1450F8423775ADE1510211420456593621A8173");
//!
//! let short = b"The quick brown fox jumps over the lazy dog.";
//! assert_eq!(digest(Variant::Normal, Options::new(), short), Err(Error::TooSmallInput));
//! assert!(digest(Variant::Normal, Options::new().small(true), short).is_ok());
//! # Ok::<(), Error>(())
//! ```
#![no_std]
#![warn(missing_docs)]

mod digest;
mod error;
mod options;
pub mod raw;
mod text;
mod variant;

pub use digest::Digest;
pub use error::Error;
pub use options::Options;
pub use text::Text;
pub use variant::Variant;

/// The digest of `input`, as text.
pub fn digest(variant: Variant, options: Options, input: &[u8]) -> Result<Text, Error> {
    Text::filled(variant, |room| raw::digest(variant.number(), options.number(), input, room))
}

/// The digest of `input`, which the library feeds to itself in pieces of `piece` bytes; 0 stands for one piece. The answer is that
/// of [`digest`] for every `piece`.
pub fn digest_pieces(variant: Variant, options: Options, piece: usize, input: &[u8]) -> Result<Text, Error> {
    Text::filled(variant, |room| raw::digest_pieces(variant.number(), options.number(), piece, input, room))
}

/// Writes the digest's text to the start of `destination` and gives its size. Later bytes stay, and so do all of them where the
/// answer is an error.
///
/// ```
/// use saltcurtain::{Error, Options, Variant, digest_into};
///
/// let input: Vec<u8> = (0..=255).collect();
/// let mut line = [b'.'; 33];
/// assert_eq!(digest_into(Variant::Short, Options::new(), &input, &mut line), Ok(32));
/// assert_eq!(line[32], b'.');
/// assert_eq!(digest_into(Variant::Short, Options::new(), &input, &mut line[..31]), Err(Error::ShortDestination));
/// ```
pub fn digest_into(variant: Variant, options: Options, input: &[u8], destination: &mut [u8]) -> Result<usize, Error> {
    let number = raw::digest(variant.number(), options.number(), input, destination);
    Error::check(number).map(|()| variant.text_len())
}

/// Reads a digest's text and writes it again. Only the one form that [`digest`] gives is read, so what comes back is what went in,
/// now known to be a digest of that variant.
///
/// ```
/// use saltcurtain::{Error, Variant, rewrite};
///
/// let text = "T14A90024954691E114404124180D942C1450F8423775ADE1510211420456593621A8173";
/// assert_eq!(&*rewrite(Variant::Normal, text)?, text);
/// assert_eq!(rewrite(Variant::Long, text), Err(Error::TextSize));
/// assert_eq!(rewrite(Variant::Normal, text.to_lowercase()), Err(Error::TextForm));
/// # Ok::<(), Error>(())
/// ```
pub fn rewrite(variant: Variant, text: impl AsRef<[u8]>) -> Result<Text, Error> {
    Text::filled(variant, |room| raw::rewrite(variant.number(), text.as_ref(), room))
}

/// The two quotients of three quartiles, as the floating path has them.
#[derive(Debug, Clone, Copy, PartialEq)]
pub struct Ratios {
    /// 100 · q1, reduced modulo 2^32, over q3.
    pub q1: f32,
    /// 100 · q2, reduced modulo 2^32, over q3.
    pub q2: f32,
    /// The whole part of the first; a digest has it modulo 16.
    pub q1_whole: u32,
    /// The whole part of the second; a digest has it modulo 16.
    pub q2_whole: u32,
}

/// The quotients of quartiles with q1 ≤ q2 ≤ q3 and q3 ≥ 1.
///
/// ```
/// use saltcurtain::{Error, ratios};
///
/// let both = ratios(1, 1, 2)?;
/// assert_eq!((both.q1, both.q2_whole), (50.0, 50));
/// assert_eq!(ratios(2, 1, 3), Err(Error::Quartiles));
/// # Ok::<(), Error>(())
/// ```
pub fn ratios(q1: u32, q2: u32, q3: u32) -> Result<Ratios, Error> {
    let mut out = [0; 4];
    Error::check(raw::ratios(q1, q2, q3, &mut out))?;
    Ok(Ratios { q1: f32::from_bits(out[0]), q2: f32::from_bits(out[1]), q1_whole: out[2], q2_whole: out[3] })
}

/// The code of a length.
///
/// ```
/// assert_eq!(saltcurtain::length_code(50), Ok(9));
/// ```
pub fn length_code(n: u32) -> Result<u32, Error> {
    let mut out = [0];
    Error::check(raw::length_code(n, &mut out))?;
    Ok(out[0])
}

/// The distance of the digests of two texts: 0 for the same digest, and the greater the less alike they are. Whoever compares a
/// text more than once reads it once, to a [`Digest`].
///
/// ```
/// use saltcurtain::{Error, Variant, distance};
///
/// let one = "T14A90024954691E114404124180D942C1450F8423775ADE1510211420456593621A8173";
/// let other = "T19E90024A21181294648A1888438D94B292C8C510612114116430600218082219C98551";
/// assert_eq!(distance(Variant::Normal, one, Variant::Normal, other), Ok(146));
/// assert_eq!(distance(Variant::Normal, one, Variant::Long, other), Err(Error::UnlikeDigests));
/// ```
pub fn distance(
    variant_a: Variant,
    text_a: impl AsRef<[u8]>,
    variant_b: Variant,
    text_b: impl AsRef<[u8]>,
) -> Result<u32, Error> {
    let answer = raw::distance(variant_a.number(), text_a.as_ref(), variant_b.number(), text_b.as_ref());
    Error::check(answer.number).map(|()| answer.distance)
}
