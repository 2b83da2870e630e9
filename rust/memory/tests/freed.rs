//! The compiler keeps the zeros that are stored just before a block is freed, though no code reads them. They are
//! looked for by the kernel's view of the process, since the program itself may not read freed memory.

use lyra2_memory::Wiping;
use std::alloc::{GlobalAlloc, Layout, System};
use std::fs::File;
use std::hint::black_box;
use std::os::unix::fs::FileExt;

/// A size that the C library's allocator keeps ready for the next block, so that its page stays.
const SIZE: usize = 600;
/// The first bytes of a freed block are the allocator's own.
const OWN: usize = 32;
const MARK: u8 = 0xa5;

/// Fills a block, frees it, and counts the marks that are then still there.
fn marks_left(allocator: &impl GlobalAlloc) -> usize {
    let memory = File::open("/proc/self/mem").expect("Linux has this file");
    let layout = Layout::from_size_align(SIZE, 8).expect("a small block");
    let mut found = [0; SIZE];
    // SAFETY: the block is written within its size and freed once; later only its address is used.
    let address = unsafe {
        let block = allocator.alloc(layout);
        black_box(block).write_bytes(MARK, SIZE);
        allocator.dealloc(black_box(block), layout);
        block.addr()
    };
    let read = memory.read_exact_at(&mut found, address as u64);
    read.expect("the page is still mapped");
    found[OWN..].iter().filter(|&&byte| byte == MARK).count()
}

#[test]
fn a_freed_block_holds_zeros_where_it_was_wiped() {
    assert_eq!(marks_left(&Wiping(System)), 0);
    // Without the wiping they are seen.
    assert_eq!(marks_left(&System), SIZE - OWN);
}
