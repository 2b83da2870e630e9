//! The refusals: their numbers, their sentences, the limits behind them, and each operation's order of checks.

use crate::choice::Limits;
use crate::input::Parameters;
use crate::settings::Settings;
use std::fmt;
use std::ops::RangeInclusive;

/// Key lengths in bytes that are accepted.
pub const KEY_LENGTHS: RangeInclusive<u64> = 1..=1024;
/// Password lengths in bytes that are accepted.
pub const PASSWORD_LENGTHS: RangeInclusive<u64> = 0..=1024;
/// Salt lengths in bytes that are accepted.
pub const SALT_LENGTHS: RangeInclusive<u64> = 8..=64;
/// Values of T that are accepted.
pub const TIME_COSTS: RangeInclusive<u64> = 0..=255;
/// Values of T that are accepted with lanes, each of which makes a visit at least.
pub const LANE_TIME_COSTS: RangeInclusive<u64> = 1..=255;
/// Values of R that are accepted.
pub const ROWS: RangeInclusive<u64> = 3..=16_384;
/// Values of C that are accepted.
pub const COLUMNS: RangeInclusive<u64> = 1..=256;
/// Values of ρ that are accepted.
pub const ROUNDS: RangeInclusive<u64> = 1..=12;
/// Values of ω that are accepted.
pub const ROTATIONS: RangeInclusive<u64> = 1..=11;

/// Numbers of lanes that are accepted, p.
pub const LANES: RangeInclusive<u64> = 1..=8;
/// The fewest rows of a lane.
pub const FEWEST_LANE_ROWS: u64 = 4;

/// Makes the refusals from a list that has each of them once, in the order of the numbers: its meaning, its
/// name, its number and its sentence.
macro_rules! refusals {
    ($($(#[$doc:meta])* $name:ident = $number:literal, $sentence:literal;)*) => {
        /// Why a call was turned down. The value of a case is its number in documents 01 and 02. Refusals
        /// are not ordered, because the numbers do not tell which check comes first.
        #[derive(Clone, Copy, Debug, PartialEq, Eq)]
        pub enum Refusal {
            $($(#[$doc])* $name = $number,)*
        }

        impl Refusal {
            /// Every refusal, in the order of the numbers.
            pub const ALL: &'static [Refusal] = &[$(Refusal::$name),*];

            /// What a caller has to keep to.
            fn sentence(self) -> &'static str {
                match self {
                    $(Refusal::$name => $sentence,)*
                }
            }
        }
    };
}

refusals! {
    /// The key length is outside its limits.
    KeyLength = 1, "the key length must be 1 to 1024 bytes";
    /// The password is too long.
    PasswordLength = 2, "the password must be at most 1024 bytes long";
    /// The salt is too short.
    SaltTooShort = 3, "the salt must be at least 8 bytes long";
    /// T is above its limit, or 0 with lanes.
    TimeCost = 4, "T must be at most 255, and with lanes at least 1";
    /// R is outside its limits.
    Rows = 5, "R must be 3 to 16384";
    /// C is outside its limits.
    Columns = 6, "C must be 1 to 256";
    /// The lent matrix is too short for R and C.
    MatrixWords = 7, "the matrix must have at least 12*R*C words";
    /// The lent record is too short for T, R and C.
    RecordWords = 8, "the record must have at least R*T*(1+C) words";
    /// The walk question names a row that no Setup step fills.
    WalkRow = 9, "row0 must be 3 to R-1";
    /// The salt is too long.
    SaltTooLong = 10, "the salt must be at most 64 bytes long";
    /// The login line is not of its form.
    LineForm = 11, "the line must be of the form $lyra2$t=T,r=R,c=C$SALT$KEY";
    /// A lent output is too short for what would be put there.
    OutputTooShort = 12, "the lent outputs must have room for what is put there";
    /// ρ is outside its limits.
    Rounds = 13, "a reduced call must have 1 to 12 rounds";
    /// ω is outside its limits.
    Rotation = 14, "the rotation must be by 1 to 11 words";
    /// No column count may be tried.
    Tries = 15, "at least one column count must be tried";
    /// No T from 1 on, R and C fit the words and the rounds.
    NothingFits = 16, "words and rounds must be enough for T = 1, R = 3 and C = 1";
    /// The used length passes the book, or the used part is not made of accounts, each number once.
    DamagedBook = 17, "the used part must be whole accounts within their limits, each number once";
    /// The book has no account of the number.
    NoAccount = 18, "the book must have an account of the number";
    /// The book has no room for the account that is to be added.
    BookTooShort = 19, "the book must have room for the accounts";
    /// The number of lanes is outside its limits, or R does not give each of them an even number of rows, and enough.
    Lanes = 20, "R must be 1 to 8 lanes of an even number of rows, at least 4";
}

impl Refusal {
    /// The refusal's number in documents 01 and 02.
    pub fn number(self) -> u8 {
        self as u8
    }

    /// The refusal with this number, if there is one.
    pub fn from_number(number: u64) -> Option<Refusal> {
        let mut all = Refusal::ALL.iter().copied();
        all.find(|refusal| u64::from(refusal.number()) == number)
    }
}

impl fmt::Display for Refusal {
    fn fmt(&self, f: &mut fmt::Formatter<'_>) -> fmt::Result {
        f.write_str(self.sentence())
    }
}

impl std::error::Error for Refusal {}

/// The checks of the recorded derivation. Here and below they stand in the order in which they are made; the
/// first whose condition holds is the answer.
pub const RECORDED_CHECKS: &[Refusal] = &[
    Refusal::KeyLength,
    Refusal::PasswordLength,
    Refusal::SaltTooShort,
    Refusal::SaltTooLong,
    Refusal::TimeCost,
    Refusal::Rows,
    Refusal::Columns,
    Refusal::Rounds,
    Refusal::Rotation,
    Refusal::MatrixWords,
    Refusal::RecordWords,
];

/// The checks of the plain derivation and of the check.
pub const PLAIN_CHECKS: &[Refusal] = &[
    Refusal::KeyLength,
    Refusal::PasswordLength,
    Refusal::SaltTooShort,
    Refusal::SaltTooLong,
    Refusal::TimeCost,
    Refusal::Rows,
    Refusal::Columns,
    Refusal::Rounds,
    Refusal::Rotation,
    Refusal::MatrixWords,
];

/// The checks of the cost question.
pub const COST_CHECKS: &[Refusal] = &[
    Refusal::KeyLength,
    Refusal::PasswordLength,
    Refusal::SaltTooShort,
    Refusal::SaltTooLong,
    Refusal::TimeCost,
    Refusal::Rows,
    Refusal::Columns,
    Refusal::Rounds,
];

/// The checks of a choice of costs, which is given neither T nor R nor C.
pub const CHOICE_CHECKS: &[Refusal] = &[
    Refusal::KeyLength,
    Refusal::PasswordLength,
    Refusal::SaltTooShort,
    Refusal::SaltTooLong,
    Refusal::Rounds,
    Refusal::Tries,
    Refusal::NothingFits,
];

/// The checks of the walk question.
pub const WALK_CHECKS: &[Refusal] = &[Refusal::Rows, Refusal::WalkRow];

/// The checks of reading a login line: the form comes before every value, and the outputs after them.
pub const LINE_READ_CHECKS: &[Refusal] = &[
    Refusal::LineForm,
    Refusal::KeyLength,
    Refusal::SaltTooShort,
    Refusal::SaltTooLong,
    Refusal::TimeCost,
    Refusal::Rows,
    Refusal::Columns,
    Refusal::OutputTooShort,
];

/// The checks of writing a login line.
pub const LINE_WRITE_CHECKS: &[Refusal] = &[
    Refusal::KeyLength,
    Refusal::SaltTooShort,
    Refusal::SaltTooLong,
    Refusal::TimeCost,
    Refusal::Rows,
    Refusal::Columns,
    Refusal::OutputTooShort,
];

/// The checks of finding and of removing an account.
pub const BOOK_FIND_CHECKS: &[Refusal] = &[Refusal::DamagedBook, Refusal::NoAccount];

/// The checks of adding an account: those on the new account come before those on the book.
pub const BOOK_ADD_CHECKS: &[Refusal] = &[
    Refusal::KeyLength,
    Refusal::SaltTooShort,
    Refusal::SaltTooLong,
    Refusal::TimeCost,
    Refusal::Rows,
    Refusal::Columns,
    Refusal::DamagedBook,
    Refusal::BookTooShort,
];

/// The checks of checking a password against an account.
pub const BOOK_CHECK_CHECKS: &[Refusal] = &[
    Refusal::PasswordLength,
    Refusal::DamagedBook,
    Refusal::NoAccount,
    Refusal::MatrixWords,
];

/// The checks of the derivation with lanes and of the check with lanes.
pub const LANES_CHECKS: &[Refusal] = &[
    Refusal::KeyLength,
    Refusal::PasswordLength,
    Refusal::SaltTooShort,
    Refusal::SaltTooLong,
    Refusal::TimeCost,
    Refusal::Rows,
    Refusal::Columns,
    Refusal::Lanes,
    Refusal::MatrixWords,
];

/// The checks of the cost question for lanes.
pub const LANES_COST_CHECKS: &[Refusal] = &[
    Refusal::KeyLength,
    Refusal::PasswordLength,
    Refusal::SaltTooShort,
    Refusal::SaltTooLong,
    Refusal::TimeCost,
    Refusal::Rows,
    Refusal::Columns,
    Refusal::Lanes,
];

/// Refuses unless the condition holds.
fn demand(holds: bool, refusal: Refusal) -> Result<(), Refusal> {
    if holds {
        Ok(())
    } else {
        Err(refusal)
    }
}

/// The length of a password against its limit: the first check of checking one against an account.
pub fn check_password(password_len: u64) -> Result<(), Refusal> {
    let password_fits = PASSWORD_LENGTHS.contains(&password_len);
    demand(password_fits, Refusal::PasswordLength)
}

/// The lengths of key, password and salt against their limits.
fn check_lengths(key_len: u64, password_len: u64, salt_len: u64) -> Result<(), Refusal> {
    demand(KEY_LENGTHS.contains(&key_len), Refusal::KeyLength)?;
    check_password(password_len)?;
    let (shortest, longest) = (*SALT_LENGTHS.start(), *SALT_LENGTHS.end());
    demand(salt_len >= shortest, Refusal::SaltTooShort)?;
    demand(salt_len <= longest, Refusal::SaltTooLong)
}

/// The six numbers of the input against their limits.
pub fn check_parameters(given: &Parameters) -> Result<(), Refusal> {
    check_numbers(given, TIME_COSTS)
}

/// The same with these values of T.
fn check_numbers(given: &Parameters, time_costs: RangeInclusive<u64>) -> Result<(), Refusal> {
    check_lengths(given.key_len, given.password_len, given.salt_len)?;
    demand(time_costs.contains(&given.t), Refusal::TimeCost)?;
    demand(ROWS.contains(&given.r), Refusal::Rows)?;
    demand(COLUMNS.contains(&given.c), Refusal::Columns)
}

/// The checks of the cost question: the six numbers, then ρ.
pub fn check_cost(given: &Parameters, rho: u64) -> Result<(), Refusal> {
    check_parameters(given)?;
    demand(ROUNDS.contains(&rho), Refusal::Rounds)
}

/// The checks of the plain derivation and of the check: the six numbers, ρ, ω, then the matrix.
pub fn check_matrix(given: &Parameters, settings: Settings, matrix: &[u64]) -> Result<(), Refusal> {
    check_cost(given, settings.rho)?;
    demand(ROTATIONS.contains(&settings.omega), Refusal::Rotation)?;
    check_room(given, matrix)
}

/// The words of a lent matrix against those that are used.
fn check_room(given: &Parameters, matrix: &[u64]) -> Result<(), Refusal> {
    let enough = matrix.len() as u64 >= given.matrix_words();
    demand(enough, Refusal::MatrixWords)
}

/// Whether r rows can be p lanes: p divides half of r, so that each lane has two halves of its own, and they are long enough.
fn are_lanes(r: u64, p: u64) -> bool {
    let halves = r.is_multiple_of(2) && (r / 2).is_multiple_of(p);
    LANES.contains(&p) && halves && r / p >= FEWEST_LANE_ROWS
}

/// The checks of the cost question for lanes: the six numbers, then p.
pub fn check_lanes_cost(given: &Parameters, p: u64) -> Result<(), Refusal> {
    check_numbers(given, LANE_TIME_COSTS)?;
    demand(are_lanes(given.r, p), Refusal::Lanes)
}

/// The checks of the derivation with lanes and of the check with lanes: those of the cost question, then the matrix.
pub fn check_lanes(given: &Parameters, p: u64, matrix: &[u64]) -> Result<(), Refusal> {
    check_lanes_cost(given, p)?;
    check_room(given, matrix)
}

/// The checks of the recorded derivation: those of the plain one, then the record.
pub fn check_record(
    given: &Parameters,
    settings: Settings,
    matrix: &[u64],
    record: &[u64],
) -> Result<(), Refusal> {
    check_matrix(given, settings, matrix)?;
    let enough = record.len() as u64 >= given.record_words();
    demand(enough, Refusal::RecordWords)
}

/// The checks of a choice of costs but for the last, which the search for the choice makes: the three lengths, ρ, then
/// how many column counts may be tried.
pub fn check_limits(given: &Limits) -> Result<(), Refusal> {
    check_lengths(given.key_len, given.password_len, given.salt_len)?;
    demand(ROUNDS.contains(&given.rho), Refusal::Rounds)?;
    demand(given.tries > 0, Refusal::Tries)
}

/// The last check of reading and of writing a login line: whether each output has enough bytes.
pub fn check_outputs(enough: bool) -> Result<(), Refusal> {
    demand(enough, Refusal::OutputTooShort)
}

/// The last check of adding an account: whether the book has enough bytes for all accounts, the new one among them.
pub fn check_book_room(enough: bool) -> Result<(), Refusal> {
    demand(enough, Refusal::BookTooShort)
}

/// The checks of the walk question: R, then the row asked about.
pub fn check_walk(r: u64, row0: u64) -> Result<(), Refusal> {
    demand(ROWS.contains(&r), Refusal::Rows)?;
    demand((3..r).contains(&row0), Refusal::WalkRow)
}
