//! Large blocks fresh from the system each time, as a process has them that derives once.

use std::ffi::c_int;

const M_MMAP_THRESHOLD: c_int = -3;
/// Where the C library starts; it raises this by itself when a larger block is freed, and then keeps such blocks.
const THRESHOLD_BYTES: c_int = 128 << 10;

extern "C" {
    fn mallopt(option: c_int, value: c_int) -> c_int;
}

/// From here on the C library asks the system for every large block and gives it back when it is freed.
pub fn take_large_blocks_from_the_system() {
    // SAFETY: the call changes a number of the allocator, and no block.
    let taken = unsafe { mallopt(M_MMAP_THRESHOLD, THRESHOLD_BYTES) };
    assert_eq!(taken, 1, "the C library refuses its own threshold");
}
