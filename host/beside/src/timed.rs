//! The writer and the reader of a text by themselves: the crate `timed`, linked where its archive is there.

/// A digest's fields, as the port lays them out.
#[repr(C)]
#[derive(Clone, Copy)]
pub struct Digest {
    /// The body: the variant uses the first 12, 32 or 64.
    pub body: [u8; 64],
    /// The number of buckets.
    pub variant: u32,
    /// The checksum.
    pub checksum: u8,
    /// The code of the length.
    pub length_code: u8,
    /// Both ratios.
    pub ratios: u8,
}

#[cfg(timed_library)]
mod linked {
    use super::Digest;

    unsafe extern "C" {
        fn saltcurtain_timed_write(
            variant: u32,
            checksum: u8,
            length_code: u8,
            ratios: u8,
            body: *const [u8; 64],
            destination: *mut u8,
            destination_len: usize,
        ) -> u32;
        fn saltcurtain_timed_read(variant: u32, text: *const u8, text_len: usize) -> Digest;
    }

    /// Why they cannot be timed.
    pub const MISSING: Option<&str> = None;

    /// The digest's text, to the start of `room`.
    pub fn write(digest: &Digest, room: &mut [u8]) -> bool {
        let Digest { body, variant, checksum, length_code, ratios } = digest;
        // SAFETY: the body and the room are lent for the call, the room with its length.
        unsafe {
            saltcurtain_timed_write(*variant, *checksum, *length_code, *ratios, body, room.as_mut_ptr(), room.len())
                == 0
        }
    }

    /// The digest of a text; of no variant where the text is refused.
    pub fn read(variant: u32, text: &[u8]) -> Digest {
        // SAFETY: the text is lent for the call, with its length.
        unsafe { saltcurtain_timed_read(variant, text.as_ptr(), text.len()) }
    }
}

#[cfg(not(timed_library))]
mod linked {
    use super::Digest;

    /// Why they cannot be timed.
    pub const MISSING: Option<&str> = Some(env!("NO_TIMED_LIBRARY"));

    /// Never asked.
    pub fn write(_: &Digest, _: &mut [u8]) -> bool {
        unreachable!()
    }

    /// Never asked.
    pub fn read(_: u32, _: &[u8]) -> Digest {
        unreachable!()
    }
}

pub use linked::{MISSING, read, write};
