//! The refusals: their numbers and their sentences.

use crate::lanes::LANE_COUNTS;
use crate::parameters::{
    COLUMNS, KEY_LENGTHS, PASSWORD_LENGTHS, ROTATIONS, ROUNDS, ROWS, SALT_LENGTHS, TIME_COSTS,
};
use std::fmt;

/// Why a call was turned down. The value of a case is its number. Refusals are not ordered: the numbers do not
/// tell which check comes first.
#[derive(Clone, Copy, Debug, PartialEq, Eq, Hash)]
#[non_exhaustive]
pub enum Refusal {
    /// The key length is outside its limits.
    KeyLength = 1,
    /// The password is too long.
    PasswordLength = 2,
    /// The salt is too short.
    SaltTooShort = 3,
    /// T is above its limit, or 0 with lanes.
    TimeCost = 4,
    /// R is outside its limits.
    Rows = 5,
    /// C is outside its limits.
    Columns = 6,
    /// The lent matrix is too short for R and C.
    MatrixWords = 7,
    /// The lent record is too short for T, R and C.
    RecordWords = 8,
    /// The walk question names a row that no Setup step fills.
    WalkRow = 9,
    /// The salt is too long.
    SaltTooLong = 10,
    /// A text is not of the form of a login line.
    LineForm = 11,
    /// A lent output is too short for what is to be written there.
    OutputTooShort = 12,
    /// The rounds of a reduced call are outside their limits.
    Rounds = 13,
    /// The rotation is outside its limits.
    Rotation = 14,
    /// A choice of costs may try no number of columns.
    Tries = 15,
    /// A choice of costs finds none: no T from 1 on, R and C fit the words and the budget.
    NothingFits = 16,
    /// A book's used length passes its bytes, or its used part is not nothing but whole accounts within the limits, no
    /// two of one number.
    BookForm = 17,
    /// A book has no account of this number.
    NoAccount = 18,
    /// A book's bytes are too few for the accounts that it would have.
    BookFull = 19,
    /// The number of lanes is outside its limits, or R is not a multiple of twice that number, or too small for it.
    Lanes = 20,
}

impl Refusal {
    /// Every refusal, by number. The order of an operation's checks is another; its documentation gives it.
    pub const ALL: [Refusal; 20] = [
        Refusal::KeyLength,
        Refusal::PasswordLength,
        Refusal::SaltTooShort,
        Refusal::TimeCost,
        Refusal::Rows,
        Refusal::Columns,
        Refusal::MatrixWords,
        Refusal::RecordWords,
        Refusal::WalkRow,
        Refusal::SaltTooLong,
        Refusal::LineForm,
        Refusal::OutputTooShort,
        Refusal::Rounds,
        Refusal::Rotation,
        Refusal::Tries,
        Refusal::NothingFits,
        Refusal::BookForm,
        Refusal::NoAccount,
        Refusal::BookFull,
        Refusal::Lanes,
    ];

    /// The refusal's number.
    pub fn number(self) -> u32 {
        self as u32
    }

    /// The answer that the library's number stands for.
    pub(crate) fn accepted(number: u32) -> Result<(), Refusal> {
        if number == 0 {
            return Ok(());
        }
        let refusal = Refusal::ALL.into_iter().find(|r| r.number() == number);
        // The contracts give no other number, so this shows a library newer than this crate.
        Err(refusal.unwrap_or_else(|| panic!("no refusal has the number {number}")))
    }
}

const LINE_FORM: &str = "the line must be of the form $lyra2$t=T,r=R,c=C$SALT$KEY";
const BOOK_FORM: &str = "the book must be whole accounts within the limits, no number twice";
const ROWS_OF_LANES: &str = ", and R a multiple of 2*p, at least 4*p";

impl fmt::Display for Refusal {
    fn fmt(&self, f: &mut fmt::Formatter<'_>) -> fmt::Result {
        let (what, limits, unit) = match self {
            Refusal::KeyLength => ("the key must be", KEY_LENGTHS, " bytes long"),
            Refusal::PasswordLength => ("the password must be", PASSWORD_LENGTHS, " bytes long"),
            Refusal::SaltTooShort => {
                let least = SALT_LENGTHS.start();
                return write!(f, "the salt must be at least {least} bytes long");
            }
            Refusal::TimeCost => ("the time cost T must be", TIME_COSTS, ", with lanes not 0"),
            Refusal::Rows => ("the number of rows R must be", ROWS, ""),
            Refusal::Columns => ("the number of columns C must be", COLUMNS, ""),
            Refusal::MatrixWords => {
                return f.write_str("the matrix must have at least 12*R*C words");
            }
            Refusal::RecordWords => {
                return f.write_str("the record must have at least R*T*(1+C) words");
            }
            Refusal::WalkRow => return f.write_str("row0 must be 3 to R-1"),
            Refusal::SaltTooLong => {
                let most = SALT_LENGTHS.end();
                return write!(f, "the salt must be at most {most} bytes long");
            }
            Refusal::LineForm => return f.write_str(LINE_FORM),
            Refusal::OutputTooShort => {
                return f.write_str("the outputs must have room for what is written there");
            }
            Refusal::Rounds => ("the rounds of a reduced call must be", ROUNDS, ""),
            Refusal::Rotation => ("the rotation must be", ROTATIONS, " words"),
            Refusal::Tries => return f.write_str("at least one column count must be tried"),
            Refusal::NothingFits => {
                return f.write_str("no T from 1 on, R and C fit the matrix and the budget");
            }
            Refusal::BookForm => return f.write_str(BOOK_FORM),
            Refusal::NoAccount => return f.write_str("the book has no account of this number"),
            Refusal::BookFull => return f.write_str("the book must have room for the account"),
            Refusal::Lanes => ("the lanes p must be", LANE_COUNTS, ROWS_OF_LANES),
        };
        write!(f, "{what} {} to {}{unit}", limits.start(), limits.end())
    }
}

impl std::error::Error for Refusal {}
