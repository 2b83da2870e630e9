//! The C interface of the proved library, called with slices.
//!
//! Each function returns 0 or the number of a refusal and leaves the places for the answer to the caller, who
//! can so see what a call does to them: after a refusal `same`, the counts, the state, `row1`, the values of a
//! choice and of a line, a line's length, an account's place and a book's new used length are 0, and all other
//! memory is what it was. [`record_pair`] and [`book_account`] refuse nothing and return their answer.
//! The crate `lyra2` turns the numbers into results.
//!
//! All functions here are safe to call. The proved functions ask nothing of their arguments, read and write
//! only the elements that a pointer's length covers, keep no pointer, and end. What is left to Rust is that
//! lengths and pointers belong together, which slices and arrays give, and that nothing else is written or
//! read through while the call writes, which the borrows give: a `&mut` overlaps no other argument.

#![warn(missing_docs)]

mod foreign;

/// The three numbers that a call spends: full calls, reduced calls, rounds.
pub type Counts = [u64; 3];

/// The sixteen words of the sponge.
pub type State = [u64; 16];

/// The values of a login line that are numbers: T, R, C, the salt's length and the key's.
pub type LineValues = [usize; 5];

/// What a derivation is made from, apart from the lent buffers.
#[derive(Clone, Copy)]
pub struct Input<'a> {
    /// The password.
    pub password: &'a [u8],
    /// The salt.
    pub salt: &'a [u8],
    /// The time cost T.
    pub time: usize,
    /// The number of rows R.
    pub rows: usize,
    /// The number of columns C.
    pub columns: usize,
    /// The rounds of a reduced call, ρ.
    pub rounds: usize,
    /// The words that the rotation goes by, ω.
    pub rotation: usize,
    /// Whether the mixer is BlaMka; else it is the plain one.
    pub blamka: bool,
}

/// The seven numbers that the cost question is about.
#[derive(Clone, Copy, Debug)]
pub struct Sizes {
    /// Key length in bytes.
    pub key: usize,
    /// Password length in bytes.
    pub password: usize,
    /// Salt length in bytes.
    pub salt: usize,
    /// The time cost T.
    pub time: usize,
    /// The number of rows R.
    pub rows: usize,
    /// The number of columns C.
    pub columns: usize,
    /// The rounds of a reduced call, ρ.
    pub rounds: usize,
}

/// The seven numbers that a choice of costs goes by.
#[derive(Clone, Copy, Debug)]
pub struct Limits {
    /// Key length in bytes.
    pub key: usize,
    /// Password length in bytes.
    pub password: usize,
    /// Salt length in bytes.
    pub salt: usize,
    /// The words of the matrix, W.
    pub words: usize,
    /// The most rounds that may be spent, B.
    pub budget: u64,
    /// The rounds of a reduced call, ρ.
    pub rounds: usize,
    /// How many column counts may be tried, N.
    pub tries: usize,
}

/// The numbers of a choice of costs: T, R, C and the shortfall, which is how many cells more than R·C any others
/// that fit can have at most.
pub type ChoiceValues = [usize; 4];

/// The plain derivation: fills the key, and leaves zeros in the used matrix.
pub fn derive(input: Input, key: &mut [u8], matrix: &mut [u64], counts: &mut Counts) -> u32 {
    // SAFETY: each pointer comes from a slice and goes with that slice's length, `counts` has the three words
    // that the call may write, and key, matrix and counts are borrowed by this call alone.
    unsafe {
        foreign::lyra2_derive(
            input.password.as_ptr(),
            input.password.len(),
            input.salt.as_ptr(),
            input.salt.len(),
            input.time,
            input.rows,
            input.columns,
            input.rounds,
            input.rotation,
            input.blamka,
            key.as_mut_ptr(),
            key.len(),
            matrix.as_mut_ptr(),
            matrix.len(),
            counts,
        )
    }
}

/// The recorded derivation: keeps the end matrix and fills the used record, and `state` becomes the state after the
/// last visit, or after Setup where T is 0.
pub fn derive_recorded(
    input: Input,
    key: &mut [u8],
    matrix: &mut [u64],
    record: &mut [u64],
    state: &mut State,
    counts: &mut Counts,
) -> u32 {
    // SAFETY: as in the plain derivation; the record goes with its length, the state has the sixteen words
    // that the call may write, and both are borrowed by this call alone.
    unsafe {
        foreign::lyra2_derive_recorded(
            input.password.as_ptr(),
            input.password.len(),
            input.salt.as_ptr(),
            input.salt.len(),
            input.time,
            input.rows,
            input.columns,
            input.rounds,
            input.rotation,
            input.blamka,
            key.as_mut_ptr(),
            key.len(),
            matrix.as_mut_ptr(),
            matrix.len(),
            record.as_mut_ptr(),
            record.len(),
            state,
            counts,
        )
    }
}

/// The check: `same` becomes 1 if the stored bytes are the key, else 0; refused, it becomes 0. The used matrix ends as
/// zeros.
pub fn check(
    input: Input,
    stored: &[u8],
    matrix: &mut [u64],
    same: &mut u32,
    counts: &mut Counts,
) -> u32 {
    // SAFETY: as in the plain derivation; the stored key goes with its length and is only read.
    unsafe {
        foreign::lyra2_check(
            input.password.as_ptr(),
            input.password.len(),
            input.salt.as_ptr(),
            input.salt.len(),
            input.time,
            input.rows,
            input.columns,
            input.rounds,
            input.rotation,
            input.blamka,
            stored.as_ptr(),
            stored.len(),
            matrix.as_mut_ptr(),
            matrix.len(),
            same,
            counts,
        )
    }
}

/// The cost question.
pub fn cost(sizes: Sizes, counts: &mut Counts) -> u32 {
    // SAFETY: the pointer is to three words that this call alone borrows; the rest are numbers.
    unsafe {
        foreign::lyra2_cost(
            sizes.key,
            sizes.password,
            sizes.salt,
            sizes.time,
            sizes.rows,
            sizes.columns,
            sizes.rounds,
            counts,
        )
    }
}

/// What a derivation with several lanes is made from, apart from the lent buffers.
#[derive(Clone, Copy)]
pub struct LanesInput<'a> {
    /// The password.
    pub password: &'a [u8],
    /// The salt.
    pub salt: &'a [u8],
    /// The time cost T.
    pub time: usize,
    /// The number of rows R, those of all lanes together.
    pub rows: usize,
    /// The number of columns C.
    pub columns: usize,
    /// The number of lanes, p.
    pub lanes: usize,
}

/// The seven numbers that the cost question for lanes is about.
#[derive(Clone, Copy, Debug)]
pub struct LanesSizes {
    /// Key length in bytes.
    pub key: usize,
    /// Password length in bytes.
    pub password: usize,
    /// Salt length in bytes.
    pub salt: usize,
    /// The time cost T.
    pub time: usize,
    /// The number of rows R, those of all lanes together.
    pub rows: usize,
    /// The number of columns C.
    pub columns: usize,
    /// The number of lanes, p.
    pub lanes: usize,
}

/// The derivation with several lanes: fills the key, and leaves zeros in the used matrix.
pub fn lanes_derive(
    input: LanesInput,
    key: &mut [u8],
    matrix: &mut [u64],
    counts: &mut Counts,
) -> u32 {
    // SAFETY: each pointer comes from a slice and goes with that slice's length, `counts` has the three words
    // that the call may write, and key, matrix and counts are borrowed by this call alone.
    unsafe {
        foreign::lyra2_lanes_derive(
            input.password.as_ptr(),
            input.password.len(),
            input.salt.as_ptr(),
            input.salt.len(),
            input.time,
            input.rows,
            input.columns,
            input.lanes,
            key.as_mut_ptr(),
            key.len(),
            matrix.as_mut_ptr(),
            matrix.len(),
            counts,
        )
    }
}

/// The check with several lanes: `same` becomes 1 if the stored bytes are the key, else 0; refused, it becomes 0. The
/// used matrix ends as zeros.
pub fn lanes_check(
    input: LanesInput,
    stored: &[u8],
    matrix: &mut [u64],
    same: &mut u32,
    counts: &mut Counts,
) -> u32 {
    // SAFETY: as in the derivation; the stored key goes with its length and is only read.
    unsafe {
        foreign::lyra2_lanes_check(
            input.password.as_ptr(),
            input.password.len(),
            input.salt.as_ptr(),
            input.salt.len(),
            input.time,
            input.rows,
            input.columns,
            input.lanes,
            stored.as_ptr(),
            stored.len(),
            matrix.as_mut_ptr(),
            matrix.len(),
            same,
            counts,
        )
    }
}

/// The cost question for several lanes.
pub fn lanes_cost(sizes: LanesSizes, counts: &mut Counts) -> u32 {
    // SAFETY: the pointer is to three words that this call alone borrows; the rest are numbers.
    unsafe {
        foreign::lyra2_lanes_cost(
            sizes.key,
            sizes.password,
            sizes.salt,
            sizes.time,
            sizes.rows,
            sizes.columns,
            sizes.lanes,
            counts,
        )
    }
}

/// The choice of costs: `values` becomes T, R, C and the shortfall, all 0 where the call is refused.
pub fn choose(limits: Limits, values: &mut ChoiceValues) -> u32 {
    // SAFETY: the pointer is to four numbers that this call alone borrows; the rest are numbers.
    unsafe {
        foreign::lyra2_choose(
            limits.key,
            limits.password,
            limits.salt,
            limits.words,
            limits.budget,
            limits.rounds,
            limits.tries,
            values,
        )
    }
}

/// The walk question: `row1` becomes the row that the Setup step of `row0` revisits.
pub fn walk(rows: usize, row0: usize, row1: &mut usize) -> u32 {
    // SAFETY: the pointer is to a number that this call alone borrows.
    unsafe { foreign::lyra2_walk(rows, row0, row1) }
}

/// The two numbers of a word of the record, which may be any word: bits 0 to 15, and all bits above them. Of a visit's
/// first word they are row0 and row1, of its other words col0 and col1 of a column.
pub fn record_pair(word: u64) -> [u64; 2] {
    let mut numbers = [0; 2];
    // SAFETY: the pointer is to two numbers that this call alone borrows.
    unsafe { foreign::lyra2_record_pair(word, &mut numbers) };
    numbers
}

/// Reads a login line: salt and key become the first bytes of theirs, the rest of both is kept.
pub fn line_read(line: &[u8], salt: &mut [u8], key: &mut [u8], values: &mut LineValues) -> u32 {
    // SAFETY: each pointer comes from a slice and goes with that slice's length, `values` has the five numbers
    // that the call may write, and salt, key and values are borrowed by this call alone.
    unsafe {
        foreign::lyra2_line_read(
            line.as_ptr(),
            line.len(),
            salt.as_mut_ptr(),
            salt.len(),
            key.as_mut_ptr(),
            key.len(),
            values,
        )
    }
}

/// What a login line is made from.
#[derive(Clone, Copy)]
pub struct LineParts<'a> {
    /// The time cost T.
    pub time: usize,
    /// The number of rows R.
    pub rows: usize,
    /// The number of columns C.
    pub columns: usize,
    /// The salt.
    pub salt: &'a [u8],
    /// The key.
    pub key: &'a [u8],
}

/// Writes a login line: it becomes the first bytes of `line`, the rest is kept, and `line_len` becomes its length.
pub fn line_write(parts: LineParts, line: &mut [u8], line_len: &mut usize) -> u32 {
    // SAFETY: each pointer comes from a slice and goes with that slice's length, or is to a number; line and line_len
    // are borrowed by this call alone.
    unsafe {
        foreign::lyra2_line_write(
            parts.time,
            parts.rows,
            parts.columns,
            parts.salt.as_ptr(),
            parts.salt.len(),
            parts.key.as_ptr(),
            parts.key.len(),
            line.as_mut_ptr(),
            line.len(),
            line_len,
        )
    }
}

/// A book of accounts that is only read: the lent bytes, of which the first `used` hold the accounts.
#[derive(Clone, Copy)]
pub struct Book<'a> {
    /// The lent bytes.
    pub bytes: &'a [u8],
    /// How many of them are used.
    pub used: usize,
}

/// The numbers of an account: its own, T, R, C, the salt's length and the key's.
pub type AccountValues = [usize; 6];

/// Looks an account up: `place` becomes the index of its first byte in the book.
pub fn book_find(book: Book, number: u32, place: &mut usize) -> u32 {
    // SAFETY: the book's pointer goes with its length, and the place is borrowed by this call alone.
    unsafe {
        foreign::lyra2_book_find(
            book.bytes.as_ptr(),
            book.bytes.len(),
            book.used,
            number,
            place,
        )
    }
}

/// Puts an account last, of which there is none of that number any more; `used_after` becomes the new used length.
pub fn book_add(
    book: &mut [u8],
    used: usize,
    number: u32,
    parts: LineParts,
    used_after: &mut usize,
) -> u32 {
    // SAFETY: each pointer comes from a slice and goes with that slice's length, or is to a number; book and used_after
    // are borrowed by this call alone.
    unsafe {
        foreign::lyra2_book_add(
            book.as_mut_ptr(),
            book.len(),
            used,
            number,
            parts.time,
            parts.rows,
            parts.columns,
            parts.salt.as_ptr(),
            parts.salt.len(),
            parts.key.as_ptr(),
            parts.key.len(),
            used_after,
        )
    }
}

/// Takes an account out and moves the later ones up; `used_after` becomes the new used length.
pub fn book_remove(book: &mut [u8], used: usize, number: u32, used_after: &mut usize) -> u32 {
    // SAFETY: the book's pointer goes with its length, and book and used_after are borrowed by this call alone.
    unsafe { foreign::lyra2_book_remove(book.as_mut_ptr(), book.len(), used, number, used_after) }
}

/// Checks a password against the key of an account, with the usual settings: `same` becomes 1 if the key is that of the
/// password, else 0; refused, it becomes 0. The used matrix ends as zeros.
pub fn book_check(
    password: &[u8],
    book: Book,
    number: u32,
    matrix: &mut [u64],
    same: &mut u32,
    counts: &mut Counts,
) -> u32 {
    // SAFETY: each pointer comes from a slice and goes with that slice's length, or is to numbers; matrix, same and
    // counts are borrowed by this call alone.
    unsafe {
        foreign::lyra2_book_check(
            password.as_ptr(),
            password.len(),
            book.bytes.as_ptr(),
            book.bytes.len(),
            book.used,
            number,
            matrix.as_mut_ptr(),
            matrix.len(),
            same,
            counts,
        )
    }
}

/// The account whose first byte stands at a place of the used part of a book: `values` becomes its numbers, and the
/// number of its bytes is returned. Where no whole account within the limits stands there, all of these are 0.
pub fn book_account(used: &[u8], place: usize, values: &mut AccountValues) -> usize {
    // SAFETY: the pointer comes from a slice and goes with its length, and the values are borrowed by this call alone.
    unsafe { foreign::lyra2_book_account(used.as_ptr(), used.len(), place, values) }
}
