//! Reading a vectors file: every line is a case, a comment or empty.

use super::case::{
    Answer, Bytes, Case, Given, LanesGiven, LentBook, LoginValues, NamedSettings, Output, Question,
    LISTED_OUTPUT_BYTES,
};
use super::fields::{unknown_value, Fields, Trouble};
use super::write::mixer_name;
use crate::account::AccountValues;
use crate::choice::{Choice, Limits};
use crate::input::Parameters;
use crate::refusal::Refusal;
use crate::settings::Mixer;
use crate::sponge::Counts;
use std::fmt;

/// The most words a lent buffer of the file may have; the reader has to hold them.
pub const MOST_WORDS: u64 = 1 << 26;
/// The longest key buffer of the file, and the longest output of a login line or of its parts.
pub const MOST_KEY_BYTES: u64 = 1 << 20;

/// What is wrong with a vectors file, and where.
#[derive(Clone, Debug, PartialEq, Eq)]
pub struct Problem {
    /// The line, counted from 1.
    pub line: usize,
    /// What is wrong with it.
    pub what: String,
}

impl fmt::Display for Problem {
    fn fmt(&self, f: &mut fmt::Formatter<'_>) -> fmt::Result {
        write!(f, "{}: {}", self.line, self.what)
    }
}

impl std::error::Error for Problem {}

/// Reads a whole file into its cases, each with its line number.
pub fn read(file: &[u8]) -> Result<Vec<(usize, Case)>, Problem> {
    let mut cases: Vec<(usize, Case)> = Vec::new();
    for (place, ended_line) in file.split_inclusive(|&byte| byte == b'\n').enumerate() {
        let line = place + 1;
        let at_line = |what: String| Problem { line, what };
        let content = ended_line
            .strip_suffix(b"\n")
            .ok_or_else(|| at_line("the line is cut off, its newline is missing".into()))?;
        if content.is_empty() || content.starts_with(b"#") {
            continue;
        }
        let text = std::str::from_utf8(content)
            .map_err(|_| at_line("the line has bytes that are no text".into()))?;
        let case = read_case(text).map_err(|trouble| at_line(sentence(&trouble)))?;
        let last = cases.last().map_or(0, |(_, case)| case.number);
        if case.number <= last {
            let what = format!("field case: {} does not rise above {last}", case.number);
            return Err(at_line(what));
        }
        cases.push((line, case));
    }
    Ok(cases)
}

fn sentence(trouble: &Trouble) -> String {
    match &trouble.field {
        Some(field) => format!("field {field}: {}", trouble.what),
        None => trouble.what.clone(),
    }
}

/// Reads one line, without its newline.
pub fn read_case(line: &str) -> Result<Case, Trouble> {
    let mut fields = Fields::split(line)?;
    let number = fields.number("case", 1..=u64::MAX)?;
    let question = read_question(&mut fields)?;
    let answer = read_answer(&mut fields, &question)?;
    // Only the answer shows whether it was given in full.
    let question = match (question, &answer) {
        (
            Question::DeriveRecorded {
                given,
                key_len,
                record_words,
                ..
            },
            Answer::Recorded { in_full, .. },
        ) => Question::DeriveRecorded {
            given,
            key_len,
            record_words,
            in_full: in_full.is_some(),
        },
        (question, _) => question,
    };
    fields.end()?;
    Ok(Case {
        number,
        question,
        answer,
    })
}

fn read_question(fields: &mut Fields) -> Result<Question, Trouble> {
    Ok(match fields.text("op")? {
        "derive_recorded" => Question::DeriveRecorded {
            given: read_given(fields)?,
            key_len: fields.number("key_len", 0..=MOST_KEY_BYTES)?,
            record_words: fields.number("record_words", 0..=MOST_WORDS)?,
            in_full: false,
        },
        "derive" => Question::Derive {
            given: read_given(fields)?,
            key_len: fields.number("key_len", 0..=MOST_KEY_BYTES)?,
        },
        "check" => Question::Check {
            given: read_given(fields)?,
            stored: fields.bytes("stored", "stored_zeros")?,
        },
        "cost" => Question::Cost {
            given: read_parameters(fields)?,
            rho: if fields.has("rho") {
                Some(fields.any_number("rho")?)
            } else {
                None
            },
        },
        "walk" => Question::Walk {
            r: fields.any_number("R")?,
            row0: fields.any_number("row0")?,
        },
        "walk_program" => Question::WalkProgram {
            input: fields.hex("input")?,
        },
        "line_read" => Question::LineRead {
            line: fields.hex("line")?,
            salt_room: fields.number("salt_room", 0..=MOST_KEY_BYTES)?,
            key_room: fields.number("key_room", 0..=MOST_KEY_BYTES)?,
        },
        "line_write" => Question::LineWrite {
            values: read_values(fields)?,
            line_room: fields.number("line_room", 0..=MOST_KEY_BYTES)?,
        },
        "choose" => Question::Choose {
            limits: read_limits(fields)?,
        },
        op if op.starts_with("lanes_") => return read_lanes_question(fields, op),
        op => return read_book_question(fields, op),
    })
}

fn read_book_question(fields: &mut Fields, op: &str) -> Result<Question, Trouble> {
    Ok(match op {
        "book_find" => Question::BookFind {
            book: read_book(fields)?,
            number: read_account_number(fields)?,
        },
        "book_add" => Question::BookAdd {
            book: read_book(fields)?,
            number: read_account_number(fields)?,
            values: read_values(fields)?,
        },
        "book_remove" => Question::BookRemove {
            book: read_book(fields)?,
            number: read_account_number(fields)?,
        },
        "book_check" => Question::BookCheck {
            password: fields.bytes("password", "password_zeros")?,
            book: read_book(fields)?,
            number: read_account_number(fields)?,
            matrix_words: fields.number("matrix_words", 0..=MOST_WORDS)?,
        },
        "book_account" => Question::BookAccount {
            used_part: fields.hex("book")?,
            place: fields.any_number("place")?,
        },
        other => return Err(unknown_value("op", other)),
    })
}

fn read_lanes_question(fields: &mut Fields, op: &str) -> Result<Question, Trouble> {
    Ok(match op {
        "lanes_derive" => Question::LanesDerive {
            given: read_lanes_given(fields)?,
            key_len: fields.number("key_len", 0..=MOST_KEY_BYTES)?,
        },
        "lanes_check" => Question::LanesCheck {
            given: read_lanes_given(fields)?,
            stored: fields.bytes("stored", "stored_zeros")?,
        },
        "lanes_cost" => Question::LanesCost {
            given: read_parameters(fields)?,
            p: fields.any_number("p")?,
        },
        other => return Err(unknown_value("op", other)),
    })
}

fn read_book(fields: &mut Fields) -> Result<LentBook, Trouble> {
    Ok(LentBook {
        bytes: fields.hex("book")?,
        used: fields.any_number("used")?,
    })
}

/// An account's number is never refused, since no other has room in its four bytes.
fn read_account_number(fields: &mut Fields) -> Result<u32, Trouble> {
    let number = fields.number("number", 0..=u64::from(u32::MAX))?;
    Ok(number as u32)
}

/// The values from which a line is written or an account added.
fn read_values(fields: &mut Fields) -> Result<LoginValues, Trouble> {
    Ok(LoginValues {
        t: fields.any_number("T")?,
        r: fields.any_number("R")?,
        c: fields.any_number("C")?,
        salt: fields.bytes("salt", "salt_zeros")?,
        key: fields.bytes("key", "key_zeros")?,
    })
}

fn read_parameters(fields: &mut Fields) -> Result<Parameters, Trouble> {
    Ok(Parameters {
        key_len: fields.any_number("key_len")?,
        password_len: fields.any_number("password_len")?,
        salt_len: fields.any_number("salt_len")?,
        t: fields.any_number("T")?,
        r: fields.any_number("R")?,
        c: fields.any_number("C")?,
    })
}

fn read_given(fields: &mut Fields) -> Result<Given, Trouble> {
    Ok(Given {
        password: fields.bytes("password", "password_zeros")?,
        salt: fields.bytes("salt", "salt_zeros")?,
        t: fields.any_number("T")?,
        r: fields.any_number("R")?,
        c: fields.any_number("C")?,
        settings: read_settings(fields)?,
        matrix_words: fields.number("matrix_words", 0..=MOST_WORDS)?,
    })
}

fn read_lanes_given(fields: &mut Fields) -> Result<LanesGiven, Trouble> {
    Ok(LanesGiven {
        password: fields.bytes("password", "password_zeros")?,
        salt: fields.bytes("salt", "salt_zeros")?,
        t: fields.any_number("T")?,
        r: fields.any_number("R")?,
        c: fields.any_number("C")?,
        p: fields.any_number("p")?,
        matrix_words: fields.number("matrix_words", 0..=MOST_WORDS)?,
    })
}

/// What a choice goes by. No matrix is lent, so that its words may be any number.
fn read_limits(fields: &mut Fields) -> Result<Limits, Trouble> {
    Ok(Limits {
        key_len: fields.any_number("key_len")?,
        password_len: fields.any_number("password_len")?,
        salt_len: fields.any_number("salt_len")?,
        matrix_words: fields.any_number("matrix_words")?,
        budget: fields.any_number("budget")?,
        rho: fields.any_number("rho")?,
        tries: fields.any_number("tries")?,
    })
}

/// The settings, or None where the line names none of them.
fn read_settings(fields: &mut Fields) -> Result<Option<NamedSettings>, Trouble> {
    if !["rho", "omega", "mixer"]
        .iter()
        .any(|name| fields.has(name))
    {
        return Ok(None);
    }
    Ok(Some(NamedSettings {
        rho: fields.any_number("rho")?,
        omega: fields.any_number("omega")?,
        mixer: read_mixer(fields)?,
    }))
}

/// The mixer, or None where the line does not name it.
fn read_mixer(fields: &mut Fields) -> Result<Option<Mixer>, Trouble> {
    if !fields.has("mixer") {
        return Ok(None);
    }
    let [plain, blamka] = [Mixer::Plain, Mixer::BlaMka].map(mixer_name);
    let is_plain = fields.either("mixer", plain, blamka)?;
    Ok(Some(if is_plain {
        Mixer::Plain
    } else {
        Mixer::BlaMka
    }))
}

fn read_answer(fields: &mut Fields, question: &Question) -> Result<Answer, Trouble> {
    // The walk program has no refusal number; its output says what it did.
    if let Question::WalkProgram { .. } = question {
        return read_output(fields).map(Answer::Output);
    }
    if let Some(refusal) = read_refusal(fields)? {
        return Ok(Answer::Refused(refusal));
    }
    Ok(match question {
        Question::DeriveRecorded { .. } => read_recorded(fields)?,
        Question::Derive { .. } | Question::LanesDerive { .. } => Answer::Derived {
            key: fields.hex("key")?,
            counts: read_counts(fields)?,
            matrix_sum: fields.word("matrix_sum")?,
        },
        Question::Check { .. } | Question::BookCheck { .. } | Question::LanesCheck { .. } => {
            Answer::Checked {
                matches: fields.either("answer", "yes", "no")?,
                counts: read_counts(fields)?,
                matrix_sum: fields.word("matrix_sum")?,
            }
        }
        Question::Cost { .. } | Question::LanesCost { .. } => Answer::Cost(read_counts(fields)?),
        Question::Walk { .. } | Question::WalkProgram { .. } => Answer::Walk {
            row1: fields.any_number("row1")?,
        },
        Question::LineRead { .. } => Answer::LineRead(LoginValues {
            t: fields.any_number("T")?,
            r: fields.any_number("R")?,
            c: fields.any_number("C")?,
            salt: fields.hex("salt").map(Bytes::Listed)?,
            key: fields.hex("key").map(Bytes::Listed)?,
        }),
        Question::LineWrite { .. } => Answer::LineWritten {
            line: fields.hex("line")?,
        },
        Question::Choose { .. } => Answer::Chosen(read_choice(fields)?),
        Question::BookFind { .. } => Answer::Found {
            place: fields.any_number("place")?,
        },
        Question::BookAdd { .. } | Question::BookRemove { .. } => Answer::Changed {
            used_after: fields.any_number("used_after")?,
            book_after: fields.hex("book_after")?,
        },
        Question::BookAccount { .. } => Answer::Account(read_account_values(fields)?),
    })
}

fn read_account_values(fields: &mut Fields) -> Result<AccountValues, Trouble> {
    Ok(AccountValues {
        size: fields.any_number("size")?,
        number: read_account_number(fields)?,
        t: fields.any_number("T")?,
        r: fields.any_number("R")?,
        c: fields.any_number("C")?,
        salt_len: fields.any_number("salt_len")?,
        key_len: fields.any_number("key_len")?,
    })
}

fn read_choice(fields: &mut Fields) -> Result<Choice, Trouble> {
    Ok(Choice {
        t: fields.any_number("T")?,
        r: fields.any_number("R")?,
        c: fields.any_number("C")?,
        shortfall: fields.any_number("shortfall")?,
    })
}

/// The refusal, or None where the call is accepted.
fn read_refusal(fields: &mut Fields) -> Result<Option<Refusal>, Trouble> {
    let number = fields.any_number("refusal")?;
    let refusal = Refusal::from_number(number);
    if number != 0 && refusal.is_none() {
        return Err(unknown_value("refusal", &number.to_string()));
    }
    Ok(refusal)
}

fn read_recorded(fields: &mut Fields) -> Result<Answer, Trouble> {
    Ok(Answer::Recorded {
        key: fields.hex("key")?,
        state: fields.exact_words("state")?,
        counts: read_counts(fields)?,
        matrix_sum: fields.word("matrix_sum")?,
        record_sum: fields.word("record_sum")?,
        in_full: if fields.has("matrix") || fields.has("record") {
            Some((fields.words("matrix")?, fields.words("record")?))
        } else {
            None
        },
    })
}

fn read_counts(fields: &mut Fields) -> Result<Counts, Trouble> {
    Ok(Counts {
        full: fields.any_number("full")?,
        reduced: fields.any_number("reduced")?,
        rounds: fields.any_number("rounds")?,
    })
}

fn read_output(fields: &mut Fields) -> Result<Output, Trouble> {
    let len = fields.any_number("output_len")?;
    let sum = fields.word("output_sum")?;
    let listed = if len <= LISTED_OUTPUT_BYTES {
        Some(fields.hex("output")?)
    } else {
        None
    };
    Ok(Output { len, sum, listed })
}
