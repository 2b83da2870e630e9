//! The functions of the C library that memory comes from, with the numbers that Linux gives their arguments on x86-64.

use std::ffi::{c_int, c_void};

pub const PROT_READ: c_int = 1;
pub const PROT_WRITE: c_int = 2;
pub const MAP_PRIVATE: c_int = 2;
pub const MAP_ANONYMOUS: c_int = 0x20;
/// What `mmap` answers where it refuses, as an address.
pub const MAP_FAILED: usize = usize::MAX;
pub const MADV_HUGEPAGE: c_int = 14;
pub const MADV_DONTDUMP: c_int = 16;

extern "C" {
    pub fn mmap(
        start: *mut c_void,
        bytes: usize,
        protection: c_int,
        flags: c_int,
        file: c_int,
        offset: i64,
    ) -> *mut c_void;

    pub fn munmap(start: *mut c_void, bytes: usize) -> c_int;

    pub fn madvise(start: *mut c_void, bytes: usize, advice: c_int) -> c_int;

    pub fn mlock(start: *const c_void, bytes: usize) -> c_int;
}
