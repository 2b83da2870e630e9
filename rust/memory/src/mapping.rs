//! A mapping of memory that belongs to nothing else, and what the system is asked for a part of it.

use crate::foreign;
use std::ffi::c_int;
use std::ptr::{null_mut, NonNull};

/// Bytes of fresh zeros, given back to the system when dropped.
pub struct Mapping {
    start: NonNull<u8>,
    bytes: usize,
}

impl Mapping {
    /// A mapping of at least one byte; None where the system has none to give.
    pub fn new(bytes: usize) -> Option<Mapping> {
        let protection = foreign::PROT_READ | foreign::PROT_WRITE;
        let flags = foreign::MAP_PRIVATE | foreign::MAP_ANONYMOUS;
        // SAFETY: without an address and MAP_FIXED no mapping that is there is touched.
        let start = unsafe { foreign::mmap(null_mut(), bytes, protection, flags, -1, 0) };
        if start.addr() == foreign::MAP_FAILED {
            return None;
        }
        let start = NonNull::new(start.cast())?;
        Some(Mapping { start, bytes })
    }

    /// The part that starts with the first multiple of the boundary, a power of two.
    ///
    /// Panics where the mapping ends before such a part does.
    pub fn part(&self, bytes: usize, boundary: usize) -> Part {
        let before = self.start.align_offset(boundary);
        let end = before.checked_add(bytes).expect("sizes far below 2^64");
        assert!(end <= self.bytes, "the mapping is too short");
        // SAFETY: the part ends within the mapping, and so starts there.
        let start = unsafe { self.start.add(before) };
        Part { start, bytes }
    }
}

impl Drop for Mapping {
    fn drop(&mut self) {
        // SAFETY: the mapping is this value's alone, and nobody holds a reference into it any more. A refusal could
        // only mean that the process has no room for one mapping more; it then keeps the memory until it ends.
        unsafe { foreign::munmap(self.start.as_ptr().cast(), self.bytes) };
    }
}

/// A part of a mapping. Its first byte starts a page, and no other part has bytes in its pages.
#[derive(Clone, Copy)]
pub struct Part {
    pub start: NonNull<u8>,
    bytes: usize,
}

impl Part {
    /// Asks for large pages; says whether the system took the request.
    pub fn ask_for_large_pages(self) -> bool {
        self.advise(foreign::MADV_HUGEPAGE)
    }

    /// Asks that core dumps leave the part out; says whether they will.
    pub fn keep_from_dumps(self) -> bool {
        self.advise(foreign::MADV_DONTDUMP)
    }

    /// Fetches all pages and keeps them from being swapped out, as far as the limits of the process allow.
    pub fn lock(self) -> bool {
        // SAFETY: the part is mapped, and locking changes no byte.
        unsafe { foreign::mlock(self.start.as_ptr().cast(), self.bytes) == 0 }
    }

    fn advise(self, advice: c_int) -> bool {
        // SAFETY: the part is mapped, and neither advice that is given here changes a byte.
        unsafe { foreign::madvise(self.start.as_ptr().cast(), self.bytes, advice) == 0 }
    }
}
