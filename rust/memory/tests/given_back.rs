//! Memory is all zeros at the moment it is given back, and all of it is. This program's own `munmap` looks at it, and
//! then unmaps it.

use lyra2_memory::Memory;
use std::ffi::{c_int, c_long, c_void};
use std::sync::Mutex;

/// The number of the system call on x86-64.
const SYS_MUNMAP: c_long = 11;

extern "C" {
    fn syscall(number: c_long, ...) -> c_long;
}

/// Words that are about to be given back, and what was found when they were.
#[derive(Clone, Copy, Debug, PartialEq)]
enum Watch {
    Nothing,
    Words { start: usize, words: usize },
    Found { left: usize },
}

static WATCH: Mutex<Watch> = Mutex::new(Watch::Nothing);

/// Stands in for the C library's. Threads of the test call it too, for memory that nobody watches.
#[no_mangle]
extern "C" fn munmap(start: *mut c_void, bytes: usize) -> c_int {
    let unmapped = start.addr()..start.addr() + bytes;
    let mut watch = WATCH.lock().expect("no thread panics with the lock");
    if let Watch::Words { start, words } = *watch {
        if unmapped.contains(&start) {
            let left = words_left(start, words);
            *watch = Watch::Found { left };
        }
    }
    drop(watch);
    // SAFETY: what is asked of the caller is the same.
    unsafe { syscall(SYS_MUNMAP, start, bytes) as c_int }
}

/// How many words are not zero.
fn words_left(start: usize, words: usize) -> usize {
    // SAFETY: the words are still mapped, and their owner is giving them back.
    let words = unsafe { std::slice::from_raw_parts(start as *const u64, words) };
    words.iter().filter(|&&word| word != 0).count()
}

#[test]
fn nothing_is_left_in_memory_that_is_given_back() {
    for words in [1, 36, 4096, (2 << 20) / 8, (6 << 20) / 8 + 5] {
        let mut memory = Memory::zeros(words).expect("a few megabytes");
        memory.fill(0xa5a5_a5a5_a5a5_a5a5);
        let start = memory.as_ptr().addr();
        *WATCH.lock().expect("no thread panics with the lock") = Watch::Words { start, words };
        drop(memory);
        let found = *WATCH.lock().expect("no thread panics with the lock");
        assert_eq!(found, Watch::Found { left: 0 }, "{words} words");
    }
}

/// Kibibytes of address space that the process has.
fn mapped() -> usize {
    let status = std::fs::read_to_string("/proc/self/status").expect("Linux writes this file");
    let line = status.lines().find_map(|line| line.strip_prefix("VmSize:"));
    let number = line.and_then(|rest| rest.trim().strip_suffix(" kB"));
    number.and_then(|text| text.parse().ok()).expect("a number")
}

/// What is mapped beside the words, for the boundary, is given back too: else 800 MiB would stay.
#[test]
fn nothing_stays_mapped() {
    let before = mapped();
    for _ in 0..400 {
        drop(Memory::zeros((2 << 20) / 8).expect("a few megabytes"));
    }
    let grown = mapped().saturating_sub(before);
    assert!(grown < 400 << 10, "{grown} KiB are still mapped");
}
