//! Lyra2 key derivation over a lent matrix.
//!
//! The work is done by the proved library, which `scripts/library.sh derivation_export` builds; this crate gives it
//! Rust's types and adds no check and no rule of its own. No operation allocates, and none can go wrong in another
//! way than by a [`Refusal`], which leaves every lent buffer as it was. Memory comes from the caller, who may have
//! it from [`Parameters::matrix`] and [`Parameters::record`], the only functions here that ask the system for any.
//!
//! # A key
//!
//! The caller lends the key buffer, whose length is the key length, and a matrix of at least
//! [`Parameters::matrix_words`] words.
//!
//! ```
//! use lyra2::{derive, Parameters};
//!
//! let parameters = Parameters { time: 1, rows: 64, columns: 16 };
//! let mut matrix = parameters.matrix()?;
//! let mut key = [0; 32];
//! let counts = derive(b"password", b"saltsalt", parameters, &mut key, &mut matrix)?;
//!
//! assert_eq!(key[..4], [0xf0, 0x66, 0xef, 0xe4]);
//! assert_eq!(counts.reduced, 64 * 16 * 2);
//! assert!(matrix.iter().all(|&word| word == 0));
//! # Ok::<(), Box<dyn std::error::Error>>(())
//! ```
//!
//! After a derivation or a check the used words of the matrix are zero, so it can be lent to anything else at once.
//! Key and password are the caller's to overwrite, and so are the matrix, the record and the state of a
//! [recorded derivation](derive_recorded): they are kept for a comparison, and give the key away. A call also clears
//! its state on the stack; that is measured and not promised.
//!
//! # A check
//!
//! ```
//! use lyra2::{check, derive, Parameters};
//!
//! let parameters = Parameters { time: 1, rows: 8, columns: 4 };
//! let mut matrix = [0; 12 * 8 * 4];
//! let mut stored = [0; 32];
//! derive(b"password", b"saltsalt", parameters, &mut stored, &mut matrix)?;
//!
//! assert!(check(b"password", b"saltsalt", parameters, &stored, &mut matrix)?.same);
//! assert!(!check(b"Password", b"saltsalt", parameters, &stored, &mut matrix)?.same);
//! # Ok::<(), lyra2::Refusal>(())
//! ```
//!
//! # Rounds, rotation and mixer
//!
//! A reduced call usually has one round, the rotation is by two words, and the [`Mixer`] is the plain one. [`Parameters`]
//! alone stand for that; [`Settings`] can have up to twelve rounds, any other rotation, and BlaMka, which multiplies. The
//! key is another one then, and a check has to go by the settings that it was made with.
//!
//! ```
//! use lyra2::{check, derive, Mixer, Parameters, Settings};
//!
//! let parameters = Parameters { time: 1, rows: 8, columns: 4 };
//! let settings = Settings { rounds: 2, rotation: 3, mixer: Mixer::BlaMka, ..parameters.into() };
//! let (mut matrix, mut key) = (parameters.matrix()?, [0; 32]);
//! let counts = derive(b"password", b"saltsalt", settings, &mut key, &mut matrix)?;
//!
//! assert_eq!(counts.rounds, 12 * counts.full + 2 * counts.reduced);
//! assert!(check(b"password", b"saltsalt", settings, &key, &mut matrix)?.same);
//! let other = Settings { mixer: Mixer::Plain, ..settings };
//! assert!(!check(b"password", b"saltsalt", other, &key, &mut matrix)?.same);
//! assert!(!check(b"password", b"saltsalt", parameters, &key, &mut matrix)?.same);
//! # Ok::<(), Box<dyn std::error::Error>>(())
//! ```
//!
//! # Several lanes
//!
//! [`Lanes`] derive with up to eight sponges, each with its part of the rows, which read each other's rows and whose keys
//! are XORed into one; docs/LANES.md describes it. The key is another one for every number of lanes, and that of one lane
//! is not that of [`derive`](derive()). R has to be a multiple of twice that number, with at least [`LANE_ROWS_MIN`] rows
//! for each.
//!
//! ```
//! use lyra2::{Lanes, Parameters, Refusal};
//!
//! let parameters = Parameters { time: 1, rows: 64, columns: 16 };
//! let lanes = Lanes { parameters, count: 4 };
//! let (mut matrix, mut key) = (parameters.matrix()?, [0; 32]);
//! let counts = lanes.derive(b"password", b"saltsalt", &mut key, &mut matrix)?;
//!
//! assert_eq!(counts.reduced, 64 * 16 * 2);
//! assert!(matrix.iter().all(|&word| word == 0));
//! assert!(lanes.check(b"password", b"saltsalt", &key, &mut matrix)?.same);
//! let one = Lanes { count: 1, ..lanes };
//! assert!(!one.check(b"password", b"saltsalt", &key, &mut matrix)?.same);
//! let seven = Lanes { count: 7, ..lanes };
//! let refused = seven.derive(b"password", b"saltsalt", &mut key, &mut matrix);
//! assert_eq!(refused, Err(Refusal::Lanes));
//! # Ok::<(), Box<dyn std::error::Error>>(())
//! ```
//!
//! # A login line
//!
//! A login line is text that holds all that a check needs beside the password: T, R, C, the salt and the key, which goes
//! with the usual rounds, rotation and mixer. docs/LOGIN-LINES.md describes it. The caller lends the outputs;
//! [`LINE_MAX`], [`SALT_MAX`] and [`KEY_MAX`] bytes are never too few. The line is as secret as the key in it.
//!
//! ```
//! use lyra2::{check, derive, read_line, write_line, Parameters, KEY_MAX, LINE_MAX, SALT_MAX};
//!
//! let parameters = Parameters { time: 1, rows: 8, columns: 4 };
//! let (mut matrix, mut key, mut text) = ([0; 12 * 8 * 4], [0; 32], [0; LINE_MAX]);
//! derive(b"password", b"saltsalt", parameters, &mut key, &mut matrix)?;
//! let length = write_line(parameters, b"saltsalt", &key, &mut text)?;
//! assert!(text.starts_with(b"$lyra2$t=1,r=8,c=4$c2FsdHNhbHQ$"));
//!
//! let (mut salt, mut key) = ([0; SALT_MAX], [0; KEY_MAX]);
//! let line = read_line(&text[..length], &mut salt, &mut key)?;
//! assert!(check(b"password", line.salt, line.parameters, line.key, &mut matrix)?.same);
//! assert!(!check(b"Password", line.salt, line.parameters, line.key, &mut matrix)?.same);
//! # Ok::<(), lyra2::Refusal>(())
//! ```
//!
//! # A book of accounts
//!
//! A gateway that checks passwords by itself keeps its accounts in a [`Book`]: lent bytes, in which an account has a
//! number, T, R, C, a salt and a key, which goes with the usual rounds, rotation and mixer. docs/ACCOUNT-BOOKS.md
//! describes the form. Accounts are added, replaced, removed, found and checked against a password; a `Book` keeps the
//! used length, also where an operation is refused. The bytes are as secret as the keys in them.
//!
//! ```
//! use lyra2::{derive, Account, Book, Parameters};
//!
//! let parameters = Parameters { time: 1, rows: 8, columns: 4 };
//! let (mut matrix, mut key) = ([0; 12 * 8 * 4], [0; 32]);
//! let mut book = Book::new([0; 1000], 0);
//! for (number, password) in [(1, b"one"), (2, b"two")] {
//!     derive(password, b"saltsalt", parameters, &mut key, &mut matrix)?;
//!     book.add(Account { number, parameters, salt: b"saltsalt", key: &key })?;
//! }
//! assert!(book.check(b"two", 2, &mut matrix)?.same);
//! assert!(!book.check(b"two", 1, &mut matrix)?.same);
//! assert_eq!(book.accounts().count(), 2);
//! # Ok::<(), lyra2::Refusal>(())
//! ```
//!
//! # Costs for a gateway
//!
//! [`choose`] proposes T, R and C for the memory and the rounds that a gateway can spend on a login, and says how many
//! cells more any others that fit have at most; [`cost`] tells what T, R and C spend that somebody has chosen.
//!
//! ```
//! use lyra2::{choose, Lengths, Limits, Parameters, COLUMNS, USUAL_ROUNDS};
//!
//! let lengths = Lengths { key: 32, password: 1024, salt: 16 };
//! let limits = Limits { words: (1 << 20) / 8, budget: 100_000, rounds: USUAL_ROUNDS, tries: *COLUMNS.end() };
//! let choice = choose(lengths, limits)?;
//!
//! assert_eq!(choice.parameters, Parameters { time: 8, rows: 10_922, columns: 1 });
//! assert_eq!(choice.shortfall, 0);
//! # Ok::<(), lyra2::Refusal>(())
//! ```
//!
//! # Memory
//!
//! Any words can be lent: a `Vec`, an array, or a [`Memory`], which [`Parameters::matrix`] and [`Parameters::record`]
//! give in the right size. For a [`Memory`] the system is asked for large pages, which make a derivation over some
//! megabytes faster, and to keep the words from core dumps and from swapping; it serves whatever the system refuses of
//! that. When dropped it is wiped and given back, so that a recorded derivation in it leaves nothing behind.
//!
//! ```
//! use lyra2::{derive_recorded, Parameters};
//!
//! let parameters = Parameters { time: 1, rows: 512, columns: 64 };
//! let (mut matrix, mut record) = (parameters.matrix()?, parameters.record()?);
//! if !matrix.granted().locked {
//!     eprintln!("the matrix may be swapped out: `ulimit -l` is too low for it");
//! }
//! let mut key = [0; 32];
//! derive_recorded(b"password", b"saltsalt", parameters, &mut key, &mut matrix, &mut record)?;
//!
//! assert!(matrix.iter().any(|&word| word != 0));
//! // Here both are wiped.
//! drop((matrix, record));
//! # Ok::<(), Box<dyn std::error::Error>>(())
//! ```
//!
//! # A record
//!
//! [`visits`] reads a record through the library's decoder: the rows of each visit, and what it picked in each column.
//!
//! ```
//! use lyra2::{derive_recorded, visits, Parameters};
//!
//! let parameters = Parameters { time: 2, rows: 8, columns: 4 };
//! let (mut matrix, mut record) = (parameters.matrix()?, parameters.record()?);
//! derive_recorded(b"password", b"saltsalt", parameters, &mut [0; 32], &mut matrix, &mut record)?;
//!
//! assert_eq!(visits(&record, 4).len(), 8 * 2);
//! for visit in visits(&record, 4) {
//!     let [row0, row1] = visit.rows();
//!     assert!(row0 < 8 && row1 < 8);
//!     assert!(visit.columns().all(|[col0, col1]| col0 < 4 && col1 < 4));
//! }
//! # Ok::<(), Box<dyn std::error::Error>>(())
//! ```
//!
//! # A refusal
//!
//! The checks run in the order that an operation's documentation gives, and the first that applies is returned.
//! Asked before memory is set aside, [`cost`] tells whether a call with a matrix that fits will be accepted, but for the
//! rotation, which it does not ask for.
//!
//! ```
//! use lyra2::{cost, Lengths, Parameters, Refusal, USUAL_ROUNDS};
//!
//! let lengths = Lengths { key: 32, password: 8, salt: 65 };
//! let parameters = Parameters { time: 256, rows: 64, columns: 16 };
//! let refusal = cost(lengths, parameters, USUAL_ROUNDS).unwrap_err();
//!
//! assert_eq!(refusal, Refusal::SaltTooLong);
//! assert_eq!(refusal.number(), 10);
//! assert_eq!(refusal.to_string(), "the salt must be at most 64 bytes long");
//! ```

#![forbid(unsafe_code)]
#![warn(missing_docs)]

mod book;
mod choice;
mod lanes;
mod line;
mod operations;
mod parameters;
mod record;
mod refusal;

pub use book::{Account, Book, ACCOUNT_HEAD, ACCOUNT_MAX};
pub use choice::{choose, Choice, Limits};
pub use lanes::{Lanes, LANES_TIME_COSTS, LANE_COUNTS, LANE_ROWS_MIN};
pub use line::{read_line, write_line, Line, KEY_MAX, LINE_MAX, SALT_MAX};
pub use lyra2_memory::{Granted, Memory, NoMemory};
pub use operations::{
    check, cost, derive, derive_recorded, walk, Checked, Counts, Recorded, STATE_WORDS,
};
pub use parameters::{
    Lengths, Mixer, Parameters, Settings, CELL_WORDS, COLUMNS, KEY_LENGTHS, PASSWORD_LENGTHS,
    ROTATIONS, ROUNDS, ROWS, SALT_LENGTHS, TIME_COSTS, USUAL_MIXER, USUAL_ROTATION, USUAL_ROUNDS,
};
pub use record::{record_pair, visits, Visit};
pub use refusal::Refusal;
