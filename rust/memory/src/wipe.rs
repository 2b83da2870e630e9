//! Overwriting memory with zeros, though nobody reads it afterwards.

use std::arch::asm;

/// Overwrites words with zeros in a way that the compiler cannot leave out.
pub fn wipe(words: &mut [u64]) {
    // SAFETY: the bytes are those of the words, which are borrowed by this call alone, and zeros are a word.
    unsafe { wipe_block(words.as_mut_ptr().cast(), size_of_val(words)) }
}

/// Overwrites bytes with zeros in a way that the compiler cannot leave out.
pub fn wipe_bytes(bytes: &mut [u8]) {
    // SAFETY: the bytes are borrowed by this call alone.
    unsafe { wipe_block(bytes.as_mut_ptr(), bytes.len()) }
}

/// Overwrites a block with zeros in a way that the compiler cannot leave out.
///
/// # Safety
///
/// So many bytes from `start` on may be written, and zeros are a value of whatever is read there afterwards.
// Inlined, so that tests/freed.rs shows what a compiler does that sees the stores and the freeing together.
#[inline]
pub unsafe fn wipe_block(start: *mut u8, bytes: usize) {
    // SAFETY: the caller's word.
    unsafe { start.write_bytes(0, bytes) };
    // The compiler takes it that this reads what the pointer leads to, and so the stores stay.
    // SAFETY: there is no instruction in it.
    unsafe { asm!("/* {0} */", in(reg) start, options(nostack, preserves_flags)) };
}
