//! No block reaches the allocator underneath with anything in it: one that watches stands there, for this whole program
//! and by itself.

use lyra2_memory::{wipe, wipe_bytes, Wiping};
use std::alloc::{GlobalAlloc, Layout, System};
use std::sync::atomic::{AtomicUsize, Ordering};

/// An allocator that looks at each block at the moment it is freed.
struct Watching {
    /// Blocks that were freed with a byte that is not zero.
    left: AtomicUsize,
    /// Blocks of `SIZE` bytes that were freed.
    freed: AtomicUsize,
    /// Blocks that it was asked to move or to grow in place.
    moved: AtomicUsize,
}

/// A size that no other block of the program has.
const SIZE: usize = 12_347;

impl Watching {
    const fn new() -> Watching {
        let [left, freed, moved] = [const { AtomicUsize::new(0) }; 3];
        Watching { left, freed, moved }
    }

    fn counts(&self) -> [usize; 3] {
        [&self.left, &self.freed, &self.moved].map(|count| count.load(Ordering::Relaxed))
    }
}

// SAFETY: everything is handed on to the system's allocator; a freed block is still there when it is looked at.
unsafe impl GlobalAlloc for Watching {
    unsafe fn alloc(&self, layout: Layout) -> *mut u8 {
        // SAFETY: what is asked of the caller is the same.
        unsafe { System.alloc(layout) }
    }

    unsafe fn dealloc(&self, block: *mut u8, layout: Layout) {
        // SAFETY: the block has so many bytes, and its owner has given it back.
        let is_zero = |place| unsafe { block.add(place).read_volatile() == 0 };
        let left = !(0..layout.size()).all(is_zero);
        self.left.fetch_add(left.into(), Ordering::Relaxed);
        let is_ours = layout.size() == SIZE;
        self.freed.fetch_add(is_ours.into(), Ordering::Relaxed);
        // SAFETY: what is asked of the caller is the same.
        unsafe { System.dealloc(block, layout) }
    }

    unsafe fn realloc(&self, block: *mut u8, layout: Layout, size: usize) -> *mut u8 {
        self.moved.fetch_add(1, Ordering::Relaxed);
        // SAFETY: what is asked of the caller is the same.
        unsafe { System.realloc(block, layout, size) }
    }
}

#[global_allocator]
static ALLOCATOR: Wiping<Watching> = Wiping(Watching::new());

#[test]
fn the_whole_program_frees_nothing_but_zeros() {
    let [_, freed, _] = ALLOCATOR.0.counts();
    let full = vec![0xa5_u8; SIZE];
    drop(full);
    let mut regrown = Vec::with_capacity(SIZE);
    regrown.resize(SIZE, 0x5a_u8);
    regrown.reserve_exact(2 * SIZE);
    assert!(regrown.iter().all(|&byte| byte == 0x5a));
    regrown.shrink_to_fit();
    assert!(regrown.iter().all(|&byte| byte == 0x5a));
    drop(regrown);
    let text: String = (0..SIZE).map(|place| format!("{place} ")).collect();
    drop(text);
    // The first one, the one that grew, and it again after it had shrunk.
    assert_eq!(ALLOCATOR.0.counts(), [0, freed + 3, 0]);
}

/// Fills a block, changes its size, looks at what was kept and frees it.
fn fill_and_change(allocator: &impl GlobalAlloc, size: usize) {
    let layout = |size| Layout::from_size_align(size, 64).expect("a small block");
    // SAFETY: the block is written within its size, and freed once with the layout that it then has.
    unsafe {
        let block = allocator.alloc(layout(SIZE));
        block.write_bytes(0xa5, SIZE);
        let block = allocator.realloc(block, layout(SIZE), size);
        let kept = std::slice::from_raw_parts(block, size.min(SIZE));
        assert!(kept.iter().all(|&byte| byte == 0xa5));
        block.write_bytes(0x5a, size);
        allocator.dealloc(block, layout(size));
    }
}

#[test]
fn a_block_that_grows_or_shrinks_leaves_nothing_behind() {
    for size in [1, SIZE - 1, SIZE + 1, 3 * SIZE] {
        let allocator = Wiping(Watching::new());
        fill_and_change(&allocator, size);
        assert_eq!(allocator.0.counts(), [0, 1, 0], "{size} bytes");
    }
}

#[test]
fn the_watch_sees_what_is_left() {
    let watching = Watching::new();
    fill_and_change(&watching, 2 * SIZE);
    assert_eq!(watching.counts(), [1, 0, 1]);
}

#[test]
fn zeroed_blocks_are_zeros() {
    let allocator = Wiping(System);
    let layout = Layout::from_size_align(SIZE, 8).expect("a small block");
    // SAFETY: the block is read within its size and freed once.
    unsafe {
        let block = allocator.alloc_zeroed(layout);
        let bytes = std::slice::from_raw_parts(block, SIZE);
        assert!(bytes.iter().all(|&byte| byte == 0));
        allocator.dealloc(block, layout);
    }
}

#[test]
fn slices_are_wiped_and_nothing_beside_them() {
    for length in [0, 1, 2, 7, 500] {
        let mut words = vec![!0; length + 2];
        wipe(&mut words[1..=length]);
        assert_eq!((words[0], words[length + 1]), (!0, !0));
        assert!(words[1..=length].iter().all(|&word| word == 0));
        let mut bytes = vec![!0; length + 2];
        wipe_bytes(&mut bytes[1..=length]);
        assert_eq!((bytes[0], bytes[length + 1]), (!0, !0));
        assert!(bytes[1..=length].iter().all(|&byte| byte == 0));
    }
}
