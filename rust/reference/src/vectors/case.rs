//! A case of the vectors file: a question put to an operation, and the answer to it.

use crate::account::AccountValues;
use crate::choice::{Choice, Limits};
use crate::input::Parameters;
use crate::refusal::{
    Refusal, BOOK_ADD_CHECKS, BOOK_CHECK_CHECKS, BOOK_FIND_CHECKS, CHOICE_CHECKS, COST_CHECKS,
    LANES_CHECKS, LANES_COST_CHECKS, LINE_READ_CHECKS, LINE_WRITE_CHECKS, PLAIN_CHECKS,
    RECORDED_CHECKS, WALK_CHECKS,
};
use crate::settings::{Mixer, Settings};
use crate::sponge::{Counts, State};

/// A run of bytes, given one by one or as a number of zeros.
#[derive(Clone, Debug, PartialEq, Eq)]
pub enum Bytes {
    /// The bytes themselves.
    Listed(Vec<u8>),
    /// This many zero bytes.
    Zeros(u64),
}

impl Bytes {
    /// The bytes themselves.
    pub fn to_vec(&self) -> Vec<u8> {
        match self {
            Bytes::Listed(bytes) => bytes.clone(),
            Bytes::Zeros(count) => vec![0; *count as usize],
        }
    }

    /// The number of bytes.
    pub fn count(&self) -> u64 {
        match self {
            Bytes::Listed(bytes) => bytes.len() as u64,
            Bytes::Zeros(count) => *count,
        }
    }
}

/// What all three deriving operations are given.
#[derive(Clone, Debug, PartialEq, Eq)]
pub struct Given {
    /// The password.
    pub password: Bytes,
    /// The salt.
    pub salt: Bytes,
    /// The time cost T.
    pub t: u64,
    /// The number of rows R.
    pub r: u64,
    /// The number of columns C.
    pub c: u64,
    /// The settings, where the line names them.
    pub settings: Option<NamedSettings>,
    /// Words of the lent matrix.
    pub matrix_words: u64,
}

impl Given {
    /// The six numbers of the input, for a key of this length.
    pub fn parameters(&self, key_len: u64) -> Parameters {
        Parameters {
            key_len,
            password_len: self.password.count(),
            salt_len: self.salt.count(),
            t: self.t,
            r: self.r,
            c: self.c,
        }
    }

    /// The settings; a line that names none goes with the usual choice.
    pub fn settings(&self) -> Settings {
        self.settings
            .map_or(Settings::USUAL, |named| named.settings())
    }
}

/// What the derivation and the check with lanes are given.
#[derive(Clone, Debug, PartialEq, Eq)]
pub struct LanesGiven {
    /// The password.
    pub password: Bytes,
    /// The salt.
    pub salt: Bytes,
    /// The time cost T.
    pub t: u64,
    /// The number of rows R, those of all lanes together.
    pub r: u64,
    /// The number of columns C.
    pub c: u64,
    /// The number of lanes p.
    pub p: u64,
    /// Words of the lent matrix.
    pub matrix_words: u64,
}

impl LanesGiven {
    /// The first six numbers of the input, for a key of this length.
    pub fn parameters(&self, key_len: u64) -> Parameters {
        Parameters {
            key_len,
            password_len: self.password.count(),
            salt_len: self.salt.count(),
            t: self.t,
            r: self.r,
            c: self.c,
        }
    }
}

/// The settings that a line names: rounds and rotation, which go together, and after them perhaps the mixer.
#[derive(Clone, Copy, Debug, PartialEq, Eq)]
pub struct NamedSettings {
    /// Rounds of a reduced call, ρ.
    pub rho: u64,
    /// Words that the rotation goes by, ω.
    pub omega: u64,
    /// The mixer, where the line names it.
    pub mixer: Option<Mixer>,
}

impl NamedSettings {
    /// Rounds and rotation alone.
    pub const fn pair(rho: u64, omega: u64) -> NamedSettings {
        NamedSettings {
            rho,
            omega,
            mixer: None,
        }
    }

    /// The settings; the mixer is the plain one where the line names none.
    pub fn settings(self) -> Settings {
        Settings {
            rho: self.rho,
            omega: self.omega,
            mixer: self.mixer.unwrap_or(Settings::USUAL.mixer),
        }
    }
}

/// Every setting named.
impl From<Settings> for NamedSettings {
    fn from(Settings { rho, omega, mixer }: Settings) -> NamedSettings {
        NamedSettings {
            rho,
            omega,
            mixer: Some(mixer),
        }
    }
}

/// The values of a login line, or of an account to be added to a book.
#[derive(Clone, Debug, PartialEq, Eq)]
pub struct LoginValues {
    /// The time cost T.
    pub t: u64,
    /// The number of rows R.
    pub r: u64,
    /// The number of columns C.
    pub c: u64,
    /// The salt.
    pub salt: Bytes,
    /// The key.
    pub key: Bytes,
}

/// A lent book of accounts.
#[derive(Clone, Debug, PartialEq, Eq)]
pub struct LentBook {
    /// All of its bytes, used or not.
    pub bytes: Vec<u8>,
    /// The used length.
    pub used: u64,
}

/// An operation and what it is given.
#[derive(Clone, Debug, PartialEq, Eq)]
pub enum Question {
    /// The recorded derivation.
    DeriveRecorded {
        /// Its inputs and matrix.
        given: Given,
        /// Bytes of the lent key buffer.
        key_len: u64,
        /// Words of the lent record.
        record_words: u64,
        /// Whether the answer lists the used matrix and record word by word.
        in_full: bool,
    },
    /// The plain derivation.
    Derive {
        /// Its inputs and matrix.
        given: Given,
        /// Bytes of the lent key buffer.
        key_len: u64,
    },
    /// The check.
    Check {
        /// Its inputs and matrix.
        given: Given,
        /// The stored key.
        stored: Bytes,
    },
    /// The cost question.
    Cost {
        /// The six numbers of the input.
        given: Parameters,
        /// Rounds of a reduced call, where the line names them.
        rho: Option<u64>,
    },
    /// The walk question.
    Walk {
        /// The number of rows R.
        r: u64,
        /// The row asked about.
        row0: u64,
    },
    /// The walk program.
    WalkProgram {
        /// Its whole standard input.
        input: Vec<u8>,
    },
    /// The reading of a login line.
    LineRead {
        /// The line.
        line: Vec<u8>,
        /// Bytes of the lent output for the salt.
        salt_room: u64,
        /// Bytes of the lent output for the key.
        key_room: u64,
    },
    /// The writing of a login line.
    LineWrite {
        /// What the line is written from.
        values: LoginValues,
        /// Bytes of the lent output.
        line_room: u64,
    },
    /// The choice of costs.
    Choose {
        /// What the choice goes by.
        limits: Limits,
    },
    /// The search for an account.
    BookFind {
        /// The book.
        book: LentBook,
        /// The account's number.
        number: u32,
    },
    /// The adding of an account.
    BookAdd {
        /// The book.
        book: LentBook,
        /// The account's number.
        number: u32,
        /// The rest of the account.
        values: LoginValues,
    },
    /// The removing of an account.
    BookRemove {
        /// The book.
        book: LentBook,
        /// The account's number.
        number: u32,
    },
    /// The check of a password against an account.
    BookCheck {
        /// The password.
        password: Bytes,
        /// The book.
        book: LentBook,
        /// The account's number.
        number: u32,
        /// Words of the lent matrix.
        matrix_words: u64,
    },
    /// The reading of what stands at a place.
    BookAccount {
        /// The used part of a book, or any other bytes.
        used_part: Vec<u8>,
        /// The place.
        place: u64,
    },
    /// The derivation with lanes.
    LanesDerive {
        /// Its inputs and matrix.
        given: LanesGiven,
        /// Bytes of the lent key buffer.
        key_len: u64,
    },
    /// The check with lanes.
    LanesCheck {
        /// Its inputs and matrix.
        given: LanesGiven,
        /// The stored key.
        stored: Bytes,
    },
    /// The cost question for lanes.
    LanesCost {
        /// The first six numbers of the input.
        given: Parameters,
        /// The number of lanes p.
        p: u64,
    },
}

impl Question {
    /// The checks of the question's operation, in their order. The walk program has none: it says by its
    /// output that it turned an input down. Nor has the reading of what stands at a place.
    pub fn checks(&self) -> &'static [Refusal] {
        match self {
            Question::DeriveRecorded { .. } => RECORDED_CHECKS,
            Question::Derive { .. } | Question::Check { .. } => PLAIN_CHECKS,
            Question::Cost { .. } => COST_CHECKS,
            Question::Walk { .. } => WALK_CHECKS,
            Question::WalkProgram { .. } | Question::BookAccount { .. } => &[],
            Question::LineRead { .. } => LINE_READ_CHECKS,
            Question::LineWrite { .. } => LINE_WRITE_CHECKS,
            Question::Choose { .. } => CHOICE_CHECKS,
            Question::BookFind { .. } | Question::BookRemove { .. } => BOOK_FIND_CHECKS,
            Question::BookAdd { .. } => BOOK_ADD_CHECKS,
            Question::BookCheck { .. } => BOOK_CHECK_CHECKS,
            Question::LanesDerive { .. } | Question::LanesCheck { .. } => LANES_CHECKS,
            Question::LanesCost { .. } => LANES_COST_CHECKS,
        }
    }
}

/// What an operation answers.
#[derive(Clone, Debug, PartialEq, Eq)]
pub enum Answer {
    /// The call was refused and changed nothing.
    Refused(Refusal),
    /// Of the recorded derivation.
    Recorded {
        /// The key.
        key: Vec<u8>,
        /// The state after the last visit, or after Setup where T is 0.
        state: State,
        /// The three counts.
        counts: Counts,
        /// Checksum of the used matrix.
        matrix_sum: u64,
        /// Checksum of the used record.
        record_sum: u64,
        /// The used matrix and the used record, if asked for in full.
        in_full: Option<(Vec<u64>, Vec<u64>)>,
    },
    /// Of the plain derivation, or of the one with lanes.
    Derived {
        /// The key.
        key: Vec<u8>,
        /// The three counts.
        counts: Counts,
        /// Checksum of the used matrix, which the call has to leave as zeros.
        matrix_sum: u64,
    },
    /// Of the check, of a stored key with lanes or without, or of a password against an account.
    Checked {
        /// Whether the stored key is the right one.
        matches: bool,
        /// The three counts.
        counts: Counts,
        /// Checksum of the used matrix, which the call has to leave as zeros.
        matrix_sum: u64,
    },
    /// Of the cost question, with lanes or without.
    Cost(Counts),
    /// Of the walk question.
    Walk {
        /// The row revisited in the step of row0.
        row1: u64,
    },
    /// Of the walk program.
    Output(Output),
    /// Of the reading of a login line; salt and key are the written bytes of the outputs.
    LineRead(LoginValues),
    /// Of the writing of a login line.
    LineWritten {
        /// The written bytes of the output.
        line: Vec<u8>,
    },
    /// Of the choice of costs.
    Chosen(Choice),
    /// Of the search for an account.
    Found {
        /// The place of its mark.
        place: u64,
    },
    /// Of the adding or the removing of an account.
    Changed {
        /// The new used length.
        used_after: u64,
        /// All bytes of the book after the call.
        book_after: Vec<u8>,
    },
    /// Of the reading of what stands at a place.
    Account(AccountValues),
}

/// The walk program's standard output.
#[derive(Clone, Debug, PartialEq, Eq)]
pub struct Output {
    /// Its number of bytes.
    pub len: u64,
    /// Its checksum.
    pub sum: u64,
    /// The output itself, if it is short.
    pub listed: Option<Vec<u8>>,
}

/// The longest output of the walk program that the file lists.
pub const LISTED_OUTPUT_BYTES: u64 = 512;

/// One line of the vectors file.
#[derive(Clone, Debug, PartialEq, Eq)]
pub struct Case {
    /// The number of the case in its file.
    pub number: u64,
    /// What is asked.
    pub question: Question,
    /// What is answered.
    pub answer: Answer,
}
