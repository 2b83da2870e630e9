//! A second Lyra2, made from Algorithms 2 and 3 of the reference guide and from documents 01 and 02 alone.
//!
//! It shares no code with the product, so that where the two agree, a slip common to both is unlikely.
//! Clarity comes before speed: each phase of the algorithm has a file of its own, in the order of the
//! pseudocode, and comments there name the pseudocode's lines.
//!
//! | file | lines of Algorithm 2 |
//! |---|---|
//! | `settings` | those of the parameters ρ and ω, and the choice of the permutation |
//! | `input` | 1 to 3 |
//! | `walk` | 4, 5 and 16 to 20 |
//! | `setup` | 6 to 15 |
//! | `visits` | 22 to 32 |
//! | `derivation` | 33 to 36, and the operations open to callers |
//!
//! With several lanes (request #111) it is Algorithm 3: `lane` has what one of them does, lines 5 to 40, by the same rows and
//! columns as `setup`, and `lanes` who goes when, line 42 and the operations.
//!
//! `line` reads and writes the login lines of request #105, `record` has the words in which the visits are noted down,
//! `choice` chooses T, R and C by the cost question (request #109), with `search` to hold it against, and `book` keeps accounts,
//! each of which is an `account` (request #110); the algorithm knows none of them.
//!
//! The caller lends every buffer. A refused call leaves all of them as they were. An accepted plain derivation
//! or check ends with zeros in the used matrix (request #104); only the recorded derivation keeps its end matrix.
//!
//! ```
//! use lyra2_reference::{check, derive, Inputs, Refusal, Settings};
//!
//! let settings = Settings::USUAL;
//! let inputs = Inputs { password: b"password", salt: b"saltsalt", t: 1, r: 8, c: 4, settings };
//! let mut key = [0; 32];
//! let mut matrix = vec![0; 12 * 8 * 4];
//! derive(&inputs, &mut key, &mut matrix)?;
//! assert!(matrix.iter().all(|&word| word == 0));
//! assert!(check(&inputs, &key, &mut matrix)?.matches);
//! # Ok::<(), Refusal>(())
//! ```

#![forbid(unsafe_code)]
#![warn(missing_docs)]

pub mod account;
pub mod base64;
pub mod book;
pub mod choice;
pub mod cost;
pub mod derivation;
pub mod input;
mod lane;
pub mod lanes;
pub mod line;
mod matrix;
pub mod record;
pub mod refusal;
pub mod search;
pub mod settings;
mod setup;
pub mod sponge;
pub mod vectors;
mod visits;
pub mod walk;

pub use account::{Account, AccountValues};
pub use book::{book_account, book_add, book_check, book_find, book_remove};
pub use choice::{choose, Choice, Limits};
pub use cost::{cost, lanes_cost};
pub use derivation::{check, derive, derive_recorded, Checked, Inputs, Recorded};
pub use input::Parameters;
pub use lanes::{lanes_check, lanes_derive, LaneInputs};
pub use line::{line_read, line_write, LineParts, LineValues};
pub use refusal::Refusal;
pub use settings::{Mixer, Settings};
pub use sponge::Counts;
pub use walk::{walk, walk_program};
