//! Words of zeros to lend, with what the system granted for them.

use crate::mapping::Mapping;
use crate::wipe::wipe;
use std::fmt;
use std::ops::{Deref, DerefMut};
use std::ptr::NonNull;

/// Bytes of a large page.
const LARGE_PAGE: usize = 2 << 20;

/// Words that start as zeros and are wiped and given back to the system when dropped.
///
/// The system is asked to take large pages, which makes a derivation over some megabytes faster; to leave the words
/// out of core dumps; and to lock them, so that they are not swapped out. Whatever it refuses, the memory serves, and
/// [`Memory::granted`] says what it took.
///
/// From 2 MiB on the words start on a boundary of 2 MiB; what is left after the last whole large page is in ordinary
/// ones. Less than 2 MiB starts on an ordinary page and asks for no large one: it would be mostly empty, and locked.
///
/// A mapping has pages of its own, so this is not for many small buffers. A child that the process forks gets a copy,
/// which is neither locked nor wiped.
pub struct Memory {
    words: NonNull<[u64]>,
    granted: Granted,
    /// None where there is no word. It is given back after [`Memory::drop`].
    _mapping: Option<Mapping>,
}

/// What the system granted for a [`Memory`]. Nothing is asked for an empty one.
#[derive(Clone, Copy, Debug, Default, PartialEq, Eq)]
pub struct Granted {
    /// The system took the request for large pages. How many there are in the end is its own matter: it may have none
    /// left, or be set to give none. From 2 MiB on they are asked for.
    pub large_pages: bool,
    /// Core dumps leave the words out.
    pub kept_from_dumps: bool,
    /// The words are locked in memory. A process without privileges may lock a few megabytes: `ulimit -l` says how
    /// many. A system that sleeps on disk writes locked words there too.
    pub locked: bool,
}

/// The system had no memory of this size to give.
#[derive(Clone, Copy, Debug, PartialEq, Eq)]
pub struct NoMemory {
    /// The bytes that were asked for; None where the number has no room in a `usize`.
    pub bytes: Option<usize>,
}

impl Memory {
    /// So many words, all of them zero.
    ///
    /// The pages of locked memory are fetched at once, so only a size that is going to be used should be asked for.
    pub fn zeros(words: usize) -> Result<Memory, NoMemory> {
        let bytes = words.checked_mul(size_of::<u64>());
        let bytes = bytes.ok_or(NoMemory { bytes: None })?;
        if bytes == 0 {
            return Ok(Memory::empty());
        }
        let is_large = bytes >= LARGE_PAGE;
        let (boundary, spare) = if is_large {
            (LARGE_PAGE, LARGE_PAGE)
        } else {
            (1, 0)
        };
        let mapping = bytes.checked_add(spare).and_then(Mapping::new);
        let mapping = mapping.ok_or(NoMemory { bytes: Some(bytes) })?;
        let part = mapping.part(bytes, boundary);
        // The fields are filled in this order: locking fetches the pages, and those that are there stay ordinary ones
        // until the system gets to joining them, if it ever does.
        let granted = Granted {
            large_pages: is_large && part.ask_for_large_pages(),
            kept_from_dumps: part.keep_from_dumps(),
            locked: part.lock(),
        };
        Ok(Memory {
            words: NonNull::slice_from_raw_parts(part.start.cast(), words),
            granted,
            _mapping: Some(mapping),
        })
    }

    fn empty() -> Memory {
        Memory {
            words: NonNull::slice_from_raw_parts(NonNull::dangling(), 0),
            granted: Granted::default(),
            _mapping: None,
        }
    }

    /// What the system granted.
    pub fn granted(&self) -> Granted {
        self.granted
    }

    /// The words as bytes, the lowest byte of each first: for secrets that are no words.
    pub fn bytes(&self) -> &[u8] {
        let bytes = size_of_val::<[u64]>(self);
        // SAFETY: the words have so many bytes, all of them initialised, and a byte may lie anywhere. They are borrowed
        // as this value is.
        unsafe { std::slice::from_raw_parts(self.as_ptr().cast(), bytes) }
    }

    /// The words as bytes that can be written.
    pub fn bytes_mut(&mut self) -> &mut [u8] {
        let bytes = size_of_val::<[u64]>(self);
        // SAFETY: as for reading, any bytes are words, and this value is borrowed by the caller alone.
        unsafe { std::slice::from_raw_parts_mut(self.as_mut_ptr().cast(), bytes) }
    }
}

// SAFETY: the words are this value's alone, as a Vec's are, and mappings and locks belong to the whole process.
unsafe impl Send for Memory {}

// SAFETY: through a shared reference words are only read.
unsafe impl Sync for Memory {}

impl Deref for Memory {
    type Target = [u64];

    fn deref(&self) -> &[u64] {
        // SAFETY: the words lie in the mapping, which is as old as this value, start on a page and were zeros at first;
        // who writes them has borrowed this value alone. Without a word the pointer is aligned and not null.
        unsafe { self.words.as_ref() }
    }
}

impl DerefMut for Memory {
    fn deref_mut(&mut self) -> &mut [u64] {
        // SAFETY: as for reading, and this value is borrowed by the caller alone.
        unsafe { self.words.as_mut() }
    }
}

impl Drop for Memory {
    fn drop(&mut self) {
        wipe(self);
    }
}

/// The number of words and what was granted, never a word.
impl fmt::Debug for Memory {
    fn fmt(&self, f: &mut fmt::Formatter<'_>) -> fmt::Result {
        f.debug_struct("Memory")
            .field("words", &self.len())
            .field("granted", &self.granted)
            .finish()
    }
}

impl fmt::Display for NoMemory {
    fn fmt(&self, f: &mut fmt::Formatter<'_>) -> fmt::Result {
        match self.bytes {
            Some(bytes) => write!(f, "the system has no memory of {bytes} bytes to give"),
            None => f.write_str("no memory has as many bytes as were asked for"),
        }
    }
}

impl std::error::Error for NoMemory {}
