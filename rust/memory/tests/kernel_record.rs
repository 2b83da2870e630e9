//! What the memory says of itself against the kernel's own record of the mapping, and its zeros and boundaries.

use lyra2_memory::{Granted, Memory, NoMemory};
use std::path::Path;

/// Words of a large page.
const LARGE_PAGE: usize = (2 << 20) / 8;
/// Bytes of an ordinary page.
const PAGE: usize = 4096;

/// Lengths around a word, a page and one or more large pages.
const LENGTHS: [usize; 12] = [
    1,
    2,
    36,
    PAGE / 8 - 1,
    PAGE / 8,
    PAGE / 8 + 1,
    LARGE_PAGE - 1,
    LARGE_PAGE,
    LARGE_PAGE + 1,
    2 * LARGE_PAGE - 1,
    3 * LARGE_PAGE,
    3 * LARGE_PAGE + 7,
];

/// The flags of the mapping that an address lies in.
fn kernel_flags(address: usize) -> Vec<String> {
    let record = std::fs::read_to_string("/proc/self/smaps").expect("Linux writes this file");
    let mut is_inside = false;
    for line in record.lines() {
        if let Some((start, end)) = range(line) {
            is_inside = (start..end).contains(&address);
        }
        if let (true, Some(flags)) = (is_inside, line.strip_prefix("VmFlags:")) {
            return flags.split_whitespace().map(String::from).collect();
        }
    }
    panic!("no mapping has the address {address:x}");
}

/// The addresses of a mapping, in the first line of its part of the record.
fn range(line: &str) -> Option<(usize, usize)> {
    let (start, end) = line.split_once(' ')?.0.split_once('-')?;
    let address = |text| usize::from_str_radix(text, 16).ok();
    Some((address(start)?, address(end)?))
}

fn recorded(address: usize) -> Granted {
    let flags = kernel_flags(address);
    let has = |flag: &str| flags.iter().any(|found| found == flag);
    Granted {
        large_pages: has("hg"),
        kept_from_dumps: has("dd"),
        locked: has("lo"),
    }
}

fn zeros(words: usize) -> Memory {
    Memory::zeros(words).expect("a few megabytes")
}

#[test]
fn the_kernel_has_recorded_what_was_granted() {
    for words in LENGTHS {
        let memory = zeros(words);
        let last = memory.as_ptr_range().end.addr() - 1;
        for address in [memory.as_ptr().addr(), last] {
            assert_eq!(recorded(address), memory.granted(), "{words} words");
        }
    }
}

/// Linux takes the request about dumps since 3.4, whatever the limits of the process, and that for large pages where it
/// is built with them.
#[test]
fn all_lengths_are_kept_from_dumps_and_large_ones_ask_for_large_pages() {
    let has_large_pages = Path::new("/sys/kernel/mm/transparent_hugepage").exists();
    for words in LENGTHS {
        let granted = zeros(words).granted();
        assert!(granted.kept_from_dumps, "{words} words");
        let due = has_large_pages && words >= LARGE_PAGE;
        assert_eq!(granted.large_pages, due, "{words} words");
    }
}

/// All are kept until the last is there, and they have all lengths in pages, so that none lies on a boundary by chance.
#[test]
fn the_boundary_is_a_large_page_or_an_ordinary_one() {
    let odd = (0..16).map(|number| LARGE_PAGE + number * 37 * PAGE / 8);
    let all: Vec<Memory> = LENGTHS.into_iter().chain(odd).map(zeros).collect();
    for memory in &all {
        let boundary = match memory.len() < LARGE_PAGE {
            true => PAGE,
            false => 8 * LARGE_PAGE,
        };
        let start = memory.as_ptr().addr();
        assert_eq!(start % boundary, 0, "{} words at {start:x}", memory.len());
    }
}

#[test]
fn all_words_are_zeros_and_keep_what_is_written() {
    for words in LENGTHS {
        // The second comes after one that was full.
        for _ in 0..2 {
            let mut memory = zeros(words);
            assert_eq!(memory.len(), words);
            assert!(memory.iter().all(|&word| word == 0), "{words} words");
            memory.fill(!0);
            assert!(memory.iter().all(|&word| word == !0), "{words} words");
        }
    }
}

#[test]
fn two_memories_lie_apart() {
    for words in LENGTHS {
        let (mut one, mut other) = (zeros(words), zeros(words));
        one.fill(1);
        other.fill(2);
        assert!(one.iter().all(|&word| word == 1), "{words} words");
    }
}

#[test]
fn no_words_are_an_empty_slice() {
    let mut memory = zeros(0);
    assert_eq!(memory.granted(), Granted::default());
    assert!(memory.as_ptr().is_aligned());
    assert_eq!(&mut memory[..], &mut []);
}

#[test]
fn more_than_there_can_be_is_refused_in_words() {
    // No address space has 2^62 bytes, and from 2^61 words on the bytes have no number.
    for (words, bytes) in [
        (1 << 59, Some(1 << 62)),
        ((1 << 61) - 1, Some(usize::MAX - 7)),
        (1 << 61, None),
        (usize::MAX, None),
    ] {
        let refused = Memory::zeros(words).map(|memory| memory.len());
        assert_eq!(refused, Err(NoMemory { bytes }));
    }
    let sentence = |bytes| NoMemory { bytes }.to_string();
    assert!(sentence(Some(4096)).contains("4096 bytes"));
    assert!(!sentence(None).is_empty());
    let error: Box<dyn std::error::Error> = NoMemory { bytes: None }.into();
    assert_eq!(error.to_string(), sentence(None));
}

#[test]
fn debug_shows_the_length_and_no_word() {
    let mut memory = zeros(36);
    memory.fill(1_234_567_890);
    let text = format!("{memory:?}");
    assert!(
        text.contains("words: 36") && text.contains("locked: "),
        "{text}"
    );
    assert!(!text.contains("1234567890"), "{text}");
}

#[test]
fn threads_share_it_and_hand_it_on() {
    let mut memory = zeros(LARGE_PAGE);
    memory[7] = 7;
    std::thread::scope(|scope| {
        let shared = &memory;
        scope.spawn(move || assert_eq!(shared[7], 7));
    });
    let handed_on = std::thread::spawn(move || memory[7]);
    assert_eq!(handed_on.join().expect("the thread ends"), 7);
}
