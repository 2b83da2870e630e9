//! The proved derivation beside the second program.
//!
//! [`Proved`] gives the C interface the form that the vectors file and the second program share, [`compare`] holds it
//! against that program on random inputs, [`lines`] on login lines, [`choices`] on choices of costs, [`books`] on books of
//! accounts, and [`lanes`] with several lanes.

#![forbid(unsafe_code)]
#![warn(missing_docs)]

pub mod books;
pub mod choices;
pub mod compare;
pub mod guarded;
pub mod lanes;
pub mod lines;

use lyra2_reference::vectors::Subject;
use lyra2_reference::{
    Account, AccountValues, Checked, Choice, Counts, Inputs, LaneInputs, Limits, LineParts,
    LineValues, Mixer, Parameters, Recorded, Refusal,
};

/// What the places for an answer hold before a call; no accepted call gives such a number.
const BEFORE: u64 = 0xa5a5_a5a5_a5a5_a5a5;

/// The proved library.
pub struct Proved;

/// A number as the library takes it.
pub fn size(number: u64) -> usize {
    usize::try_from(number).expect("the library is built for numbers of 64 bits")
}

/// The second program's inputs as the library takes them.
pub fn input<'a>(inputs: &Inputs<'a>) -> lyra2_sys::Input<'a> {
    lyra2_sys::Input {
        password: inputs.password,
        salt: inputs.salt,
        time: size(inputs.t),
        rows: size(inputs.r),
        columns: size(inputs.c),
        rounds: size(inputs.settings.rho),
        rotation: size(inputs.settings.omega),
        blamka: inputs.settings.mixer == Mixer::BlaMka,
    }
}

/// The second program's six numbers and ρ as the library takes them.
pub fn sizes(given: &Parameters, rho: u64) -> lyra2_sys::Sizes {
    lyra2_sys::Sizes {
        key: size(given.key_len),
        password: size(given.password_len),
        salt: size(given.salt_len),
        time: size(given.t),
        rows: size(given.r),
        columns: size(given.c),
        rounds: size(rho),
    }
}

/// The second program's inputs of a derivation with lanes as the library takes them.
pub fn lanes_input<'a>(inputs: &LaneInputs<'a>) -> lyra2_sys::LanesInput<'a> {
    lyra2_sys::LanesInput {
        password: inputs.password,
        salt: inputs.salt,
        time: size(inputs.t),
        rows: size(inputs.r),
        columns: size(inputs.c),
        lanes: size(inputs.p),
    }
}

/// The second program's six numbers and p as the library takes them.
pub fn lanes_sizes(given: &Parameters, p: u64) -> lyra2_sys::LanesSizes {
    lyra2_sys::LanesSizes {
        key: size(given.key_len),
        password: size(given.password_len),
        salt: size(given.salt_len),
        time: size(given.t),
        rows: size(given.r),
        columns: size(given.c),
        lanes: size(p),
    }
}

/// The second program's limits of a choice as the library takes them.
pub fn limits(given: &Limits) -> lyra2_sys::Limits {
    lyra2_sys::Limits {
        key: size(given.key_len),
        password: size(given.password_len),
        salt: size(given.salt_len),
        words: size(given.matrix_words),
        budget: given.budget,
        rounds: size(given.rho),
        tries: size(given.tries),
    }
}

impl Subject for Proved {
    fn derive_recorded(
        &self,
        inputs: &Inputs,
        key: &mut [u8],
        matrix: &mut [u64],
        record: &mut [u64],
    ) -> Option<Result<Recorded, Refusal>> {
        let (mut state, mut costs) = ([BEFORE; 16], [BEFORE; 3]);
        let number =
            lyra2_sys::derive_recorded(input(inputs), key, matrix, record, &mut state, &mut costs);
        if number != 0 {
            assert_eq!(state, [0; 16], "the state of a refused call");
        }
        Some(counts(number, costs).map(|counts| Recorded { state, counts }))
    }

    fn derive(
        &self,
        inputs: &Inputs,
        key: &mut [u8],
        matrix: &mut [u64],
    ) -> Result<Counts, Refusal> {
        let mut costs = [BEFORE; 3];
        let number = lyra2_sys::derive(input(inputs), key, matrix, &mut costs);
        counts(number, costs)
    }

    fn check(
        &self,
        inputs: &Inputs,
        stored: &[u8],
        matrix: &mut [u64],
    ) -> Result<Checked, Refusal> {
        let mut costs = [BEFORE; 3];
        let mut same = BEFORE as u32;
        let number = lyra2_sys::check(input(inputs), stored, matrix, &mut same, &mut costs);
        checked(number, same, costs)
    }

    fn cost(&self, given: &Parameters, rho: u64) -> Result<Counts, Refusal> {
        let mut costs = [BEFORE; 3];
        let number = lyra2_sys::cost(sizes(given, rho), &mut costs);
        counts(number, costs)
    }

    fn walk(&self, r: u64, row0: u64) -> Result<u64, Refusal> {
        let mut row1 = BEFORE as usize;
        let number = lyra2_sys::walk(size(r), size(row0), &mut row1);
        if number != 0 {
            assert_eq!(row1, 0, "row1 of a refused question");
        }
        accepted(number).map(|()| row1 as u64)
    }

    fn line_read(
        &self,
        line: &[u8],
        salt: &mut [u8],
        key: &mut [u8],
    ) -> Option<Result<LineValues, Refusal>> {
        let mut values = [BEFORE as usize; 5];
        let number = lyra2_sys::line_read(line, salt, key, &mut values);
        if number != 0 {
            assert_eq!(values, [0; 5], "the values of a line that is refused");
        }
        let [t, r, c, salt_len, key_len] = values.map(|value| value as u64);
        Some(accepted(number).map(|()| LineValues {
            t,
            r,
            c,
            salt_len,
            key_len,
        }))
    }

    fn line_write(&self, parts: &LineParts, line: &mut [u8]) -> Option<Result<u64, Refusal>> {
        let parts = lyra2_sys::LineParts {
            time: size(parts.t),
            rows: size(parts.r),
            columns: size(parts.c),
            salt: parts.salt,
            key: parts.key,
        };
        let mut line_len = BEFORE as usize;
        let number = lyra2_sys::line_write(parts, line, &mut line_len);
        if number != 0 {
            assert_eq!(line_len, 0, "the length of a line that is refused");
        }
        Some(accepted(number).map(|()| line_len as u64))
    }

    fn choose(&self, given: &Limits) -> Option<Result<Choice, Refusal>> {
        // The four values stand between others, which show whether a call writes beside them.
        let mut places = [[BEFORE as usize; 4]; 3];
        let number = lyra2_sys::choose(limits(given), &mut places[1]);
        let [before, values, after] = places;
        assert_eq!(
            [before, after],
            [[BEFORE as usize; 4]; 2],
            "beside the values of a choice"
        );
        if number != 0 {
            assert_eq!(values, [0; 4], "the values of a refused choice");
        }
        let [t, r, c, shortfall] = values.map(|value| value as u64);
        Some(accepted(number).map(|()| Choice { t, r, c, shortfall }))
    }

    fn book_find(&self, book: &[u8], used: u64, number: u32) -> Option<Result<u64, Refusal>> {
        let book = lent(book, used);
        Some(book_number(|place| {
            lyra2_sys::book_find(book, number, place)
        }))
    }

    fn book_add(
        &self,
        book: &mut [u8],
        used: u64,
        account: &Account,
    ) -> Option<Result<u64, Refusal>> {
        let parts = lyra2_sys::LineParts {
            time: size(account.t),
            rows: size(account.r),
            columns: size(account.c),
            salt: account.salt,
            key: account.key,
        };
        Some(book_number(|used_after| {
            lyra2_sys::book_add(book, size(used), account.number, parts, used_after)
        }))
    }

    fn book_remove(&self, book: &mut [u8], used: u64, number: u32) -> Option<Result<u64, Refusal>> {
        Some(book_number(|used_after| {
            lyra2_sys::book_remove(book, size(used), number, used_after)
        }))
    }

    fn book_check(
        &self,
        password: &[u8],
        book: &[u8],
        used: u64,
        number: u32,
        matrix: &mut [u64],
    ) -> Option<Result<Checked, Refusal>> {
        let mut costs = [BEFORE; 3];
        let mut same = BEFORE as u32;
        let book = lent(book, used);
        let answer = lyra2_sys::book_check(password, book, number, matrix, &mut same, &mut costs);
        Some(checked(answer, same, costs))
    }

    fn book_account(&self, used_part: &[u8], place: u64) -> Option<AccountValues> {
        // The six values stand between others, which show whether a call writes beside them.
        let mut places = [[BEFORE as usize; 6]; 3];
        let bytes = lyra2_sys::book_account(used_part, size(place), &mut places[1]);
        let [before, values, after] = places;
        assert_eq!(
            [before, after],
            [[BEFORE as usize; 6]; 2],
            "beside the values of an account"
        );
        let [number, t, r, c, salt_len, key_len] = values.map(|value| value as u64);
        Some(AccountValues {
            size: bytes as u64,
            number: u32::try_from(number).expect("an account's number has 32 bits"),
            t,
            r,
            c,
            salt_len,
            key_len,
        })
    }

    fn lanes_derive(
        &self,
        inputs: &LaneInputs,
        key: &mut [u8],
        matrix: &mut [u64],
    ) -> Option<Result<Counts, Refusal>> {
        let mut costs = [BEFORE; 3];
        let number = lyra2_sys::lanes_derive(lanes_input(inputs), key, matrix, &mut costs);
        Some(counts(number, costs))
    }

    fn lanes_check(
        &self,
        inputs: &LaneInputs,
        stored: &[u8],
        matrix: &mut [u64],
    ) -> Option<Result<Checked, Refusal>> {
        let mut costs = [BEFORE; 3];
        let mut same = BEFORE as u32;
        let number =
            lyra2_sys::lanes_check(lanes_input(inputs), stored, matrix, &mut same, &mut costs);
        Some(checked(number, same, costs))
    }

    fn lanes_cost(&self, given: &Parameters, p: u64) -> Option<Result<Counts, Refusal>> {
        let mut costs = [BEFORE; 3];
        let number = lyra2_sys::lanes_cost(lanes_sizes(given, p), &mut costs);
        Some(counts(number, costs))
    }
}

/// A book that is only read, as the library takes it.
fn lent(bytes: &[u8], used: u64) -> lyra2_sys::Book<'_> {
    lyra2_sys::Book {
        bytes,
        used: size(used),
    }
}

/// The place or the used length that an accepted call puts down; that of a refused one must be zero.
fn book_number(call: impl FnOnce(&mut usize) -> u32) -> Result<u64, Refusal> {
    // The number stands between others, which show whether a call writes beside it.
    let mut numbers = [BEFORE as usize; 3];
    let answer = call(&mut numbers[1]);
    let [before, number, after] = numbers;
    assert_eq!(
        [before, after],
        [BEFORE as usize; 2],
        "beside the answer of a call on a book"
    );
    if answer != 0 {
        assert_eq!(number, 0, "the place or used length of a refused call");
    }
    accepted(answer).map(|()| number as u64)
}

/// The answer of a check; that of a refused one must be no, with counts of zero.
fn checked(number: u32, same: u32, costs: lyra2_sys::Counts) -> Result<Checked, Refusal> {
    if number != 0 {
        assert_eq!(same, 0, "the answer of a refused check");
    }
    let counts = counts(number, costs)?;
    let matches = match same {
        0 => false,
        1 => true,
        other => panic!("the check answered {other}, neither yes nor no"),
    };
    Ok(Checked { matches, counts })
}

/// The answer that a number stands for.
fn accepted(number: u32) -> Result<(), Refusal> {
    if number == 0 {
        return Ok(());
    }
    let refusal = Refusal::from_number(u64::from(number));
    Err(refusal.unwrap_or_else(|| panic!("no refusal has the number {number}")))
}

/// The counts of an accepted call; those of a refused one must be zero.
fn counts(number: u32, costs: lyra2_sys::Counts) -> Result<Counts, Refusal> {
    if number != 0 {
        assert_eq!(costs, [0; 3], "the counts of a refused call");
    }
    let [full, reduced, rounds] = costs;
    accepted(number).map(|()| Counts {
        full,
        reduced,
        rounds,
    })
}
