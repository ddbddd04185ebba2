//! The second judge: Trend Micro's C++, as Debian has it (3.4.4). It has the normal variant with floating ratios alone, writes
//! no `T1`, and refuses inputs below 256 bytes.

/// The least input that it takes.
pub const LEAST: usize = 256;

/// The characters of a text without `T1`, and a zero.
pub const SIZE: usize = 71;

#[cfg(second_judge)]
mod linked {
    use super::SIZE;
    use std::ffi::c_char;

    unsafe extern "C" {
        fn judge_digest(input: *const u8, length: u32, text: *mut c_char) -> i32;
        fn judge_rewrite(from: *const c_char, text: *mut c_char) -> i32;
        fn judge_distance(one: *const c_char, other: *const c_char) -> i32;
    }

    /// Why it cannot be asked.
    pub const MISSING: Option<&str> = None;

    /// Its digest of the input, which has fewer than 2^32 bytes.
    pub fn digest(input: &[u8], text: &mut [u8; SIZE]) -> bool {
        let length = u32::try_from(input.len()).expect("an input that it can count");
        // SAFETY: the input is lent with its length, and the text has room for all that is written.
        unsafe { judge_digest(input.as_ptr(), length, text.as_mut_ptr().cast()) != 0 }
    }

    /// The text, which ends in a zero, read and written again.
    pub fn rewrite(from: &[u8; SIZE], text: &mut [u8; SIZE]) -> bool {
        assert_eq!(from[SIZE - 1], 0);
        // SAFETY: both have 70 characters and a zero.
        unsafe { judge_rewrite(from.as_ptr().cast(), text.as_mut_ptr().cast()) != 0 }
    }

    /// Its distance of two texts, which end in a zero.
    pub fn distance(one: &[u8; SIZE], other: &[u8; SIZE]) -> Option<u32> {
        assert_eq!((one[SIZE - 1], other[SIZE - 1]), (0, 0));
        // SAFETY: both have 70 characters and a zero.
        u32::try_from(unsafe { judge_distance(one.as_ptr().cast(), other.as_ptr().cast()) }).ok()
    }
}

#[cfg(not(second_judge))]
mod linked {
    use super::SIZE;

    /// Why it cannot be asked.
    pub const MISSING: Option<&str> = Some(env!("NO_SECOND_JUDGE"));

    /// Never asked.
    pub fn digest(_: &[u8], _: &mut [u8; SIZE]) -> bool {
        unreachable!()
    }

    /// Never asked.
    pub fn rewrite(_: &[u8; SIZE], _: &mut [u8; SIZE]) -> bool {
        unreachable!()
    }

    /// Never asked.
    pub fn distance(_: &[u8; SIZE], _: &[u8; SIZE]) -> Option<u32> {
        unreachable!()
    }
}

pub use linked::{MISSING, digest, distance, rewrite};
