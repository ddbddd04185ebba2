//! The entry points as they are: numbers and slices in, the number of the answer out, or a struct that begins with it. A refusal
//! writes nothing, and leaves zeros in the rest of the struct.
//!
//! include/saltcurtain.h has the same eight for C. Each slice goes over as a pointer and a length, which is what the library asks
//! for; nothing else is asked of a caller, so every function here is safe.

/// A digest, as the library lays it out.
#[repr(C)]
#[derive(Debug, Clone, Copy, PartialEq, Eq, Hash)]
pub struct Digest {
    /// The body: the variant uses the first 12, 32 or 64 bytes, and a digest that was read has 0 in the others.
    pub body: [u8; 64],
    /// Its other fields.
    pub head: Head,
}

/// A digest without its body.
#[repr(C)]
#[derive(Debug, Clone, Copy, PartialEq, Eq, Hash)]
pub struct Head {
    /// The number of buckets.
    pub variant: u32,
    /// The checksum.
    pub checksum: u8,
    /// The code of the length.
    pub length_code: u8,
    /// The ratio of q1 in the low four bits, that of q2 in the high four.
    pub ratios: u8,
}

/// The number of an answer, and the digest that was read.
#[repr(C)]
#[derive(Debug, Clone, Copy, PartialEq, Eq)]
pub struct Read {
    /// 0, or the refusal.
    pub number: u32,
    /// All zero beside a refusal.
    pub digest: Digest,
}

/// The number of an answer, and a distance.
#[repr(C)]
#[derive(Debug, Clone, Copy, PartialEq, Eq)]
pub struct Distance {
    /// 0, or the refusal.
    pub number: u32,
    /// 0 beside a refusal.
    pub distance: u32,
}

mod entry {
    use super::{Distance, Head, Read};

    unsafe extern "C" {
        pub fn saltcurtain_digest(
            variant: u32,
            options: u32,
            input: *const u8,
            input_len: usize,
            destination: *mut u8,
            destination_len: usize,
        ) -> u32;
        pub fn saltcurtain_digest_pieces(
            variant: u32,
            options: u32,
            piece: usize,
            input: *const u8,
            input_len: usize,
            destination: *mut u8,
            destination_len: usize,
        ) -> u32;
        pub fn saltcurtain_rewrite(
            variant: u32,
            text: *const u8,
            text_len: usize,
            destination: *mut u8,
            destination_len: usize,
        ) -> u32;
        pub fn saltcurtain_ratios(q1: u32, q2: u32, q3: u32, out: *mut [u32; 4]) -> u32;
        pub fn saltcurtain_length_code(n: u32, out: *mut [u32; 1]) -> u32;
        pub fn saltcurtain_distance(
            variant_a: u32,
            text_a: *const u8,
            text_a_len: usize,
            variant_b: u32,
            text_b: *const u8,
            text_b_len: usize,
        ) -> Distance;
        pub fn saltcurtain_read(variant: u32, text: *const u8, text_len: usize) -> Read;
        pub fn saltcurtain_distance_read(a: Head, x: *const [u8; 64], b: Head, y: *const [u8; 64]) -> Distance;
    }
}

/// The digest's text, to the start of `destination`. Order of refusals: 10, 6, 7, 1, 2, 5, 3, 4.
pub fn digest(variant: u32, options: u32, input: &[u8], destination: &mut [u8]) -> u32 {
    // SAFETY: both slices are lent for the call, with their own lengths.
    unsafe {
        entry::saltcurtain_digest(
            variant,
            options,
            input.as_ptr(),
            input.len(),
            destination.as_mut_ptr(),
            destination.len(),
        )
    }
}

/// The same, with the input fed in pieces of `piece` bytes; 0 stands for one piece.
pub fn digest_pieces(variant: u32, options: u32, piece: usize, input: &[u8], destination: &mut [u8]) -> u32 {
    // SAFETY: both slices are lent for the call, with their own lengths.
    unsafe {
        entry::saltcurtain_digest_pieces(
            variant,
            options,
            piece,
            input.as_ptr(),
            input.len(),
            destination.as_mut_ptr(),
            destination.len(),
        )
    }
}

/// The text read, then written to the start of `destination`. Order of refusals: 6, 7, 8, 9.
pub fn rewrite(variant: u32, text: &[u8], destination: &mut [u8]) -> u32 {
    // SAFETY: both slices are lent for the call, with their own lengths.
    unsafe {
        entry::saltcurtain_rewrite(variant, text.as_ptr(), text.len(), destination.as_mut_ptr(), destination.len())
    }
}

/// The bits of both quotients, then both whole parts. Refusal: 11.
pub fn ratios(q1: u32, q2: u32, q3: u32, out: &mut [u32; 4]) -> u32 {
    // SAFETY: `out` is lent for the call.
    unsafe { entry::saltcurtain_ratios(q1, q2, q3, out) }
}

/// The code of the length `n`. Refusal: 5.
pub fn length_code(n: u32, out: &mut [u32; 1]) -> u32 {
    // SAFETY: `out` is lent for the call.
    unsafe { entry::saltcurtain_length_code(n, out) }
}

/// The distance of the digests of two texts. Order of refusals: 6, 12, then 8 and 9 of the first text, then of the second.
pub fn distance(variant_a: u32, text_a: &[u8], variant_b: u32, text_b: &[u8]) -> Distance {
    // SAFETY: both slices are lent for the call, with their own lengths.
    unsafe {
        entry::saltcurtain_distance(variant_a, text_a.as_ptr(), text_a.len(), variant_b, text_b.as_ptr(), text_b.len())
    }
}

/// The digest of a text. Order of refusals: 6, 8, 9.
pub fn read(variant: u32, text: &[u8]) -> Read {
    // SAFETY: the slice is lent for the call, with its own length.
    unsafe { entry::saltcurtain_read(variant, text.as_ptr(), text.len()) }
}

/// The distance of two digests that were read. Order of refusals: 6, 12.
pub fn distance_read(a: &Digest, b: &Digest) -> Distance {
    // SAFETY: both bodies are lent for the call.
    unsafe { entry::saltcurtain_distance_read(a.head, &a.body, b.head, &b.body) }
}
