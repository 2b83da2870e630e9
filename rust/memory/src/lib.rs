//! Memory to lend to a derivation, and overwriting memory so that the compiler cannot leave it out.
//!
//! | file | subject |
//! |---|---|
//! | `memory` | [`Memory`]: words of zeros on large pages, kept from core dumps and from swapping, wiped when dropped |
//! | `mapping` | the mapping below it, and what the system is asked for it |
//! | `foreign` | the functions of the C library that this takes |
//! | `wipe` | [`wipe()`] and [`wipe_bytes`], which overwrite with zeros |
//! | `wiping` | [`Wiping`], an allocator that wipes every block before it is freed |
//!
//! It is for x86-64 Linux, as the proved library is, and uses std alone.
//!
//! ```
//! use lyra2_memory::Memory;
//!
//! let mut words = Memory::zeros(1 << 20)?;
//! assert!(words.iter().all(|&word| word == 0));
//! words[0] = 0x0123_4567_89ab_cdef;
//! println!("{:?}", words.granted());
//! // Here the words are wiped and given back.
//! drop(words);
//! # Ok::<(), lyra2_memory::NoMemory>(())
//! ```

#![deny(unsafe_op_in_unsafe_fn)]
#![warn(missing_docs)]

mod foreign;
mod mapping;
mod memory;
mod wipe;
mod wiping;

pub use memory::{Granted, Memory, NoMemory};
pub use wipe::{wipe, wipe_bytes};
pub use wiping::Wiping;
