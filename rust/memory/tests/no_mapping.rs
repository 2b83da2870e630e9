//! Where the system has no memory to give, the answer says so. This program's own `mmap` refuses.

use lyra2_memory::{Memory, NoMemory};
use std::ffi::{c_int, c_void};
use std::ptr::without_provenance_mut;
use std::sync::atomic::{AtomicUsize, Ordering};

static ASKED: AtomicUsize = AtomicUsize::new(0);

/// Stands in for the C library's, which std does not call by this name.
#[no_mangle]
extern "C" fn mmap(
    _start: *mut c_void,
    _bytes: usize,
    _protection: c_int,
    _flags: c_int,
    _file: c_int,
    _offset: i64,
) -> *mut c_void {
    ASKED.fetch_add(1, Ordering::Relaxed);
    without_provenance_mut(usize::MAX)
}

#[test]
fn a_refused_mapping_is_told_with_its_bytes() {
    for words in [1, 36, (2 << 20) / 8, 12 * 16_384 * 256] {
        let before = ASKED.load(Ordering::Relaxed);
        let refused = Memory::zeros(words).map(|memory| memory.len());
        let bytes = Some(8 * words);
        assert_eq!(refused, Err(NoMemory { bytes }));
        assert_eq!(ASKED.load(Ordering::Relaxed), before + 1);
    }
}

#[test]
fn no_words_need_no_mapping() {
    let memory = Memory::zeros(0).expect("nothing is asked for");
    assert!(memory.is_empty());
}
