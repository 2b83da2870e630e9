//! An allocator that wipes every block before it is freed.

use crate::wipe::wipe_block;
use std::alloc::{GlobalAlloc, Layout, System};

/// Wipes every block before the allocator underneath frees it, so that freed memory holds no secret.
///
/// It is for programs whose libraries copy what is secret into buffers of their own:
///
/// ```
/// use lyra2_memory::Wiping;
/// use std::alloc::System;
///
/// #[global_allocator]
/// static ALLOCATOR: Wiping = Wiping(System);
/// # fn main() {}
/// ```
///
/// A block that grows or shrinks is always moved, since the allocator underneath would leave what it moves from as it
/// is. The cost is a pass over each block, which a program with few allocations does not notice.
pub struct Wiping<A = System>(pub A);

// SAFETY: blocks come from the allocator underneath and go back to it with the layout that they came with; between
// that only bytes of a block that its owner has given back are written. `realloc` is std's own, which allocates,
// copies and frees by the functions below, so that the block that is left is wiped too.
unsafe impl<A: GlobalAlloc> GlobalAlloc for Wiping<A> {
    unsafe fn alloc(&self, layout: Layout) -> *mut u8 {
        // SAFETY: what is asked of the caller is the same.
        unsafe { self.0.alloc(layout) }
    }

    unsafe fn alloc_zeroed(&self, layout: Layout) -> *mut u8 {
        // SAFETY: what is asked of the caller is the same.
        unsafe { self.0.alloc_zeroed(layout) }
    }

    unsafe fn dealloc(&self, block: *mut u8, layout: Layout) {
        // SAFETY: the caller gives the block back, so all its bytes may be written; the rest is asked of it as well.
        unsafe {
            wipe_block(block, layout.size());
            self.0.dealloc(block, layout);
        }
    }
}
