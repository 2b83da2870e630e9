//! Writing a case as a line of text.

use super::case::{
    Answer, Bytes, Case, Given, LanesGiven, LentBook, LoginValues, NamedSettings, Output, Question,
};
use crate::account::AccountValues;
use crate::choice::{Choice, Limits};
use crate::input::Parameters;
use crate::settings::Mixer;
use crate::sponge::Counts;

/// The first lines of the vectors file.
pub const HEADING: &str = "\
# Lyra2 test vectors, a case a line; README.md beside this file says how to read them.
";

/// A name and a value of a line.
pub type Field = (&'static str, String);

/// The line of a case, with its newline.
pub fn line(case: &Case) -> String {
    let start = vec![
        ("case", case.number.to_string()),
        ("op", op(&case.question).to_string()),
    ];
    let fields = [start, question(&case.question), answer(&case.answer)].concat();
    let words: Vec<_> = fields.iter().map(|(n, v)| format!("{n}={v}")).collect();
    words.join(" ") + "\n"
}

/// The name of a question's operation.
pub fn op(question: &Question) -> &'static str {
    match question {
        Question::DeriveRecorded { .. } => "derive_recorded",
        Question::Derive { .. } => "derive",
        Question::Check { .. } => "check",
        Question::Cost { .. } => "cost",
        Question::Walk { .. } => "walk",
        Question::WalkProgram { .. } => "walk_program",
        Question::LineRead { .. } => "line_read",
        Question::LineWrite { .. } => "line_write",
        Question::Choose { .. } => "choose",
        Question::BookFind { .. } => "book_find",
        Question::BookAdd { .. } => "book_add",
        Question::BookRemove { .. } => "book_remove",
        Question::BookCheck { .. } => "book_check",
        Question::BookAccount { .. } => "book_account",
        Question::LanesDerive { .. } => "lanes_derive",
        Question::LanesCheck { .. } => "lanes_check",
        Question::LanesCost { .. } => "lanes_cost",
    }
}

fn question(question: &Question) -> Vec<Field> {
    match question {
        Question::DeriveRecorded {
            given: inputs,
            key_len,
            record_words,
            ..
        } => {
            let key_len = vec![("key_len", key_len.to_string())];
            let record_words = vec![("record_words", record_words.to_string())];
            [key_len, given(inputs), record_words].concat()
        }
        Question::Derive {
            given: inputs,
            key_len,
        } => [vec![("key_len", key_len.to_string())], given(inputs)].concat(),
        Question::Check {
            given: inputs,
            stored,
        } => [vec![bytes("stored", "stored_zeros", stored)], given(inputs)].concat(),
        Question::Cost { given, rho } => {
            let rho = rho.map(|rho| ("rho", rho.to_string()));
            [parameters(given), rho.into_iter().collect()].concat()
        }
        Question::Walk { r, row0 } => vec![("R", r.to_string()), ("row0", row0.to_string())],
        Question::WalkProgram { input } => vec![("input", hex(input))],
        Question::LineRead {
            line,
            salt_room,
            key_room,
        } => vec![
            ("line", hex(line)),
            ("salt_room", salt_room.to_string()),
            ("key_room", key_room.to_string()),
        ],
        Question::LineWrite { values, line_room } => {
            let line_room = vec![("line_room", line_room.to_string())];
            [login_values(values), line_room].concat()
        }
        Question::Choose { limits } => choice_limits(limits),
        Question::BookFind { .. }
        | Question::BookAdd { .. }
        | Question::BookRemove { .. }
        | Question::BookCheck { .. }
        | Question::BookAccount { .. } => book_question(question),
        Question::LanesDerive { .. } | Question::LanesCheck { .. } | Question::LanesCost { .. } => {
            lanes_question(question)
        }
    }
}

fn book_question(question: &Question) -> Vec<Field> {
    match question {
        Question::BookFind { book, number } | Question::BookRemove { book, number } => {
            book_and_number(book, *number)
        }
        Question::BookAdd {
            book,
            number,
            values,
        } => [book_and_number(book, *number), login_values(values)].concat(),
        Question::BookCheck {
            password,
            book,
            number,
            matrix_words,
        } => {
            let password = vec![bytes("password", "password_zeros", password)];
            let matrix_words = vec![("matrix_words", matrix_words.to_string())];
            [password, book_and_number(book, *number), matrix_words].concat()
        }
        Question::BookAccount { used_part, place } => {
            vec![("book", hex(used_part)), ("place", place.to_string())]
        }
        _ => Vec::new(),
    }
}

fn lanes_question(question: &Question) -> Vec<Field> {
    match question {
        Question::LanesDerive { given, key_len } => {
            let key_len = vec![("key_len", key_len.to_string())];
            [key_len, lanes_given(given)].concat()
        }
        Question::LanesCheck { given, stored } => {
            let stored = vec![bytes("stored", "stored_zeros", stored)];
            [stored, lanes_given(given)].concat()
        }
        Question::LanesCost { given, p } => {
            [parameters(given), vec![("p", p.to_string())]].concat()
        }
        _ => Vec::new(),
    }
}

fn book_and_number(book: &LentBook, number: u32) -> Vec<Field> {
    vec![
        ("book", hex(&book.bytes)),
        ("used", book.used.to_string()),
        ("number", number.to_string()),
    ]
}

fn parameters(given: &Parameters) -> Vec<Field> {
    vec![
        ("key_len", given.key_len.to_string()),
        ("password_len", given.password_len.to_string()),
        ("salt_len", given.salt_len.to_string()),
        ("T", given.t.to_string()),
        ("R", given.r.to_string()),
        ("C", given.c.to_string()),
    ]
}

/// The name of a mixer.
pub fn mixer_name(mixer: Mixer) -> &'static str {
    match mixer {
        Mixer::Plain => "plain",
        Mixer::BlaMka => "blamka",
    }
}

fn given(given: &Given) -> Vec<Field> {
    let mut fields = vec![
        bytes("password", "password_zeros", &given.password),
        bytes("salt", "salt_zeros", &given.salt),
        ("T", given.t.to_string()),
        ("R", given.r.to_string()),
        ("C", given.c.to_string()),
    ];
    if let Some(NamedSettings { rho, omega, mixer }) = given.settings {
        fields.push(("rho", rho.to_string()));
        fields.push(("omega", omega.to_string()));
        fields.extend(mixer.map(|mixer| ("mixer", mixer_name(mixer).to_string())));
    }
    fields.push(("matrix_words", given.matrix_words.to_string()));
    fields
}

fn lanes_given(given: &LanesGiven) -> Vec<Field> {
    vec![
        bytes("password", "password_zeros", &given.password),
        bytes("salt", "salt_zeros", &given.salt),
        ("T", given.t.to_string()),
        ("R", given.r.to_string()),
        ("C", given.c.to_string()),
        ("p", given.p.to_string()),
        ("matrix_words", given.matrix_words.to_string()),
    ]
}

fn login_values(values: &LoginValues) -> Vec<Field> {
    vec![
        ("T", values.t.to_string()),
        ("R", values.r.to_string()),
        ("C", values.c.to_string()),
        bytes("salt", "salt_zeros", &values.salt),
        bytes("key", "key_zeros", &values.key),
    ]
}

fn choice_limits(limits: &Limits) -> Vec<Field> {
    vec![
        ("key_len", limits.key_len.to_string()),
        ("password_len", limits.password_len.to_string()),
        ("salt_len", limits.salt_len.to_string()),
        ("matrix_words", limits.matrix_words.to_string()),
        ("budget", limits.budget.to_string()),
        ("rho", limits.rho.to_string()),
        ("tries", limits.tries.to_string()),
    ]
}

fn choice(choice: &Choice) -> Vec<Field> {
    vec![
        ("T", choice.t.to_string()),
        ("R", choice.r.to_string()),
        ("C", choice.c.to_string()),
        ("shortfall", choice.shortfall.to_string()),
    ]
}

/// The fields of an answer, the refusal first.
pub fn answer(answer: &Answer) -> Vec<Field> {
    let accepted = vec![("refusal", "0".to_string())];
    match answer {
        Answer::Refused(refusal) => vec![("refusal", refusal.number().to_string())],
        Answer::Recorded { .. } => [accepted, recorded(answer)].concat(),
        Answer::Derived {
            key,
            counts: spent,
            matrix_sum,
        } => {
            let sum = vec![("matrix_sum", word(*matrix_sum))];
            [accepted, vec![("key", hex(key))], counts(spent), sum].concat()
        }
        Answer::Checked {
            matches,
            counts: spent,
            matrix_sum,
        } => {
            let yes_or_no = if *matches { "yes" } else { "no" };
            let answer = vec![("answer", yes_or_no.to_string())];
            let sum = vec![("matrix_sum", word(*matrix_sum))];
            [accepted, answer, counts(spent), sum].concat()
        }
        Answer::Cost(spent) => [accepted, counts(spent)].concat(),
        Answer::Walk { row1 } => [accepted, vec![("row1", row1.to_string())]].concat(),
        Answer::Output(printed) => output(printed),
        Answer::LineRead(values) => [accepted, login_values(values)].concat(),
        Answer::LineWritten { line } => [accepted, vec![("line", hex(line))]].concat(),
        Answer::Chosen(chosen) => [accepted, choice(chosen)].concat(),
        Answer::Found { place } => [accepted, vec![("place", place.to_string())]].concat(),
        Answer::Changed {
            used_after,
            book_after,
        } => [accepted, changed(*used_after, book_after)].concat(),
        Answer::Account(values) => [accepted, account(values)].concat(),
    }
}

fn changed(used_after: u64, book_after: &[u8]) -> Vec<Field> {
    vec![
        ("used_after", used_after.to_string()),
        ("book_after", hex(book_after)),
    ]
}

fn account(values: &AccountValues) -> Vec<Field> {
    vec![
        ("size", values.size.to_string()),
        ("number", values.number.to_string()),
        ("T", values.t.to_string()),
        ("R", values.r.to_string()),
        ("C", values.c.to_string()),
        ("salt_len", values.salt_len.to_string()),
        ("key_len", values.key_len.to_string()),
    ]
}

fn output(output: &Output) -> Vec<Field> {
    let mut fields = vec![
        ("output_len", output.len.to_string()),
        ("output_sum", word(output.sum)),
    ];
    fields.extend(output.listed.iter().map(|bytes| ("output", hex(bytes))));
    fields
}

fn recorded(answer: &Answer) -> Vec<Field> {
    let Answer::Recorded {
        key,
        state,
        counts: spent,
        matrix_sum,
        record_sum,
        in_full,
    } = answer
    else {
        return Vec::new();
    };
    let start = vec![("key", hex(key)), ("state", words(state))];
    let sums = vec![
        ("matrix_sum", word(*matrix_sum)),
        ("record_sum", word(*record_sum)),
    ];
    let mut fields = [start, counts(spent), sums].concat();
    if let Some((matrix, record)) = in_full {
        fields.push(("matrix", words(matrix)));
        fields.push(("record", words(record)));
    }
    fields
}

fn counts(counts: &Counts) -> Vec<Field> {
    vec![
        ("full", counts.full.to_string()),
        ("reduced", counts.reduced.to_string()),
        ("rounds", counts.rounds.to_string()),
    ]
}

fn bytes(name: &'static str, zeros_name: &'static str, bytes: &Bytes) -> Field {
    match bytes {
        Bytes::Listed(bytes) => (name, hex(bytes)),
        Bytes::Zeros(count) => (zeros_name, count.to_string()),
    }
}

fn hex(bytes: &[u8]) -> String {
    bytes.iter().map(|byte| format!("{byte:02x}")).collect()
}

fn word(word: u64) -> String {
    format!("{word:016x}")
}

fn words(words: &[u64]) -> String {
    let each: Vec<_> = words.iter().copied().map(word).collect();
    each.join(",")
}
