//! A few bytes that stand many times after each other in the address space and once in memory.
//!
//! The entry points take the whole input as one slice. An input of more than 2^32 bytes, or one that is read once, is a pattern in a
//! file without a name, mapped again and again at rising addresses: 4 GiB of input need as much memory as the pattern has.
use std::ffi::{c_char, c_int, c_void};
use std::io::Write;
use std::os::fd::{AsRawFd, FromRawFd, OwnedFd};
use std::{fs, io, ptr, slice};

/// The size of a page of memory: a pattern is a whole number of pages.
pub const PAGE: usize = 4096;

const READ: c_int = 1;
const NONE: c_int = 0;
const SHARED: c_int = 1;
const PRIVATE: c_int = 2;
const FIXED: c_int = 0x10;
const ANONYMOUS: c_int = 0x20;
const NO_RESERVE: c_int = 0x4000;

unsafe extern "C" {
    fn memfd_create(name: *const c_char, flags: u32) -> c_int;
    fn mmap(at: *mut c_void, length: usize, access: c_int, flags: c_int, file: c_int, offset: i64) -> *mut c_void;
    fn munmap(at: *mut c_void, length: usize) -> c_int;
}

/// A pattern, repeated.
pub struct Mapped {
    start: *mut c_void,
    length: usize,
}

// SAFETY: the bytes are only read.
unsafe impl Sync for Mapped {}
// SAFETY: nothing of it belongs to a thread.
unsafe impl Send for Mapped {}

impl Mapped {
    /// The pattern as often as it takes to have at least `length` bytes.
    pub fn new(pattern: &[u8], length: usize) -> io::Result<Self> {
        assert!(!pattern.is_empty() && pattern.len() % PAGE == 0);
        // SAFETY: the name ends in a zero; the descriptor that comes back is nobody else's.
        let file = unsafe {
            let file = memfd_create(c"pattern".as_ptr(), 0);
            if file < 0 {
                return Err(io::Error::last_os_error());
            }
            OwnedFd::from_raw_fd(file)
        };
        fs::File::from(file.try_clone()?).write_all(pattern)?;

        let length = length.next_multiple_of(pattern.len());
        let map = |at, length, access, flags, file| {
            // SAFETY: a fixed address lies only ever inside the stretch that was reserved for this value.
            let got = unsafe { mmap(at, length, access, flags, file, 0) };
            if got as isize == -1 { Err(io::Error::last_os_error()) } else { Ok(got) }
        };
        let start = map(ptr::null_mut(), length, NONE, PRIVATE | ANONYMOUS | NO_RESERVE, -1)?;
        let own = Self { start, length };
        for place in (0..length).step_by(pattern.len()) {
            let at = start.wrapping_byte_add(place);
            map(at, pattern.len(), READ, SHARED | FIXED, file.as_raw_fd())?;
        }
        Ok(own)
    }

    /// All of its bytes.
    pub fn bytes(&self) -> &[u8] {
        // SAFETY: all of the stretch is mapped for reading until this value goes, and nothing writes to it.
        unsafe { slice::from_raw_parts(self.start.cast(), self.length) }
    }
}

impl Drop for Mapped {
    fn drop(&mut self) {
        // SAFETY: the stretch is this value's own. There is nothing to do where it fails.
        unsafe { munmap(self.start, self.length) };
    }
}
