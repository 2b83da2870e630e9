//! How fast the proved derivation is, beside other programs for the same function and beside Argon2id.
//!
//! | file | subject |
//! |---|---|
//! | `speed` | the plain derivation in safe Rust, written for speed |
//! | `intrinsics` | the plain derivation in C with intrinsics, of `c/` |
//! | `argon2` | Argon2id of libargon2, where it is installed |
//! | `lent` | the buffers that a program works in, on ordinary pages or on large ones |
//! | `programs` | everything that is measured, in one form |
//! | `measure` | the turns in which the programs run, and their times |
//! | `table`, `machine` | the tables of docs/PERFORMANCE.md and the machine they hold for |
//! | `settings` | other settings than the usual ones |
//! | `lanes` | several lanes beside the single sponge |
//! | `pages`, `fresh` | large pages beside ordinary ones, and a Vec of pages that were never touched |
//! | `sizes`, `plot` | time against memory, and the picture of it |

#![deny(unsafe_code)]
#![warn(missing_docs)]

#[allow(unsafe_code)]
pub mod argon2;
#[allow(unsafe_code)]
pub mod fresh;
#[allow(unsafe_code)]
pub mod intrinsics;
pub mod lanes;
pub mod lent;
pub mod machine;
pub mod measure;
pub mod pages;
pub mod plot;
pub mod programs;
pub mod settings;
pub mod sizes;
pub mod speed;
pub mod table;
