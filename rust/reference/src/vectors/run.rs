//! Putting questions to a program, and comparing its answers with a file's and with one another.

use super::case::{Answer, Bytes, Case, Given, LoginValues, Output, Question, LISTED_OUTPUT_BYTES};
use super::fields::short;
use super::subject::Subject;
use super::{checksum, lent, run_book, run_lanes, write};
use crate::choice::{Choice, Limits, CHOSEN_TIME_COSTS, SMALLEST_COSTS};
use crate::refusal::Refusal;
use crate::settings::Settings;
use crate::{Counts, Inputs, LineParts};

/// How much of a case a program could be held against.
#[derive(Clone, Copy, Debug, PartialEq, Eq)]
pub enum Coverage {
    /// The case's own operation was asked.
    Whole,
    /// The program lacks that operation; others were asked for what they share of the answer.
    SharedPart,
    /// The program has no operation that the case tells something about.
    Nothing,
}

/// Puts a question. An error says which lent place was changed that should have kept its contents, or
/// that the program lacks the operation.
pub fn ask(subject: &impl Subject, question: &Question) -> Result<Answer, String> {
    let lacking = || format!("the program has no {}", write::op(question));
    ask_if_offered(subject, question)?.ok_or_else(lacking)
}

/// Puts a question; None says that the program lacks the operation.
pub(super) fn ask_if_offered(
    subject: &impl Subject,
    question: &Question,
) -> Result<Option<Answer>, String> {
    let answer = match question {
        Question::DeriveRecorded {
            given,
            key_len,
            record_words,
            in_full,
        } => return ask_recorded(subject, given, *key_len, *record_words, *in_full),
        Question::Derive { given, key_len } => ask_plain(subject, given, *key_len)?,
        Question::Check { given, stored } => ask_check(subject, given, stored)?,
        Question::Cost { given, rho } => subject
            .cost(given, rho.unwrap_or(Settings::USUAL.rho))
            .map_or_else(Answer::Refused, Answer::Cost),
        Question::Walk { r, row0 } => subject
            .walk(*r, *row0)
            .map_or_else(Answer::Refused, |row1| Answer::Walk { row1 }),
        Question::WalkProgram { input } => return Ok(subject.walk_program(input).map(output)),
        Question::LineRead {
            line,
            salt_room,
            key_room,
        } => return ask_line_read(subject, line, *salt_room, *key_room),
        Question::LineWrite { values, line_room } => {
            return ask_line_write(subject, values, *line_room)
        }
        Question::Choose { limits } => {
            let chosen = subject.choose(limits);
            return Ok(chosen.map(|chosen| chosen.map_or_else(Answer::Refused, Answer::Chosen)));
        }
        Question::BookFind { .. }
        | Question::BookAdd { .. }
        | Question::BookRemove { .. }
        | Question::BookCheck { .. }
        | Question::BookAccount { .. } => return run_book::ask(subject, question),
        Question::LanesDerive { .. } | Question::LanesCheck { .. } | Question::LanesCost { .. } => {
            return run_lanes::ask(subject, question)
        }
    };
    Ok(Some(answer))
}

fn output(bytes: Vec<u8>) -> Answer {
    let len = bytes.len() as u64;
    let sum = checksum::of_bytes(bytes.iter().copied());
    let listed = (len <= LISTED_OUTPUT_BYTES).then_some(bytes);
    Answer::Output(Output { len, sum, listed })
}

fn ask_recorded(
    subject: &impl Subject,
    given: &Given,
    key_len: u64,
    record_words: u64,
    in_full: bool,
) -> Result<Option<Answer>, String> {
    let mut key = lent::bytes(key_len);
    let mut matrix = lent::words(given.matrix_words);
    let mut record = lent::words(record_words);
    let answer = with_inputs(given, |inputs| {
        subject.derive_recorded(inputs, &mut key, &mut matrix, &mut record)
    });
    let recorded = match answer {
        None => return Ok(None),
        Some(Ok(recorded)) => recorded,
        Some(Err(refusal)) => {
            lent::bytes_are_kept("key buffer", &key, 0)?;
            lent::words_are_kept("matrix", &matrix, 0)?;
            lent::words_are_kept("record", &record, 0)?;
            return Ok(Some(Answer::Refused(refusal)));
        }
    };
    let parameters = given.parameters(key_len);
    let used_matrix = lent::used("matrix", &matrix, parameters.matrix_words())?;
    let used_record = lent::used("record", &record, parameters.record_words())?;
    Ok(Some(Answer::Recorded {
        key,
        state: recorded.state,
        counts: recorded.counts,
        matrix_sum: checksum::of_words(used_matrix),
        record_sum: checksum::of_words(used_record),
        in_full: in_full.then(|| (used_matrix.to_vec(), used_record.to_vec())),
    }))
}

fn ask_plain(subject: &impl Subject, given: &Given, key_len: u64) -> Result<Answer, String> {
    let mut key = lent::bytes(key_len);
    let mut matrix = lent::words(given.matrix_words);
    let answer = with_inputs(given, |inputs| {
        subject.derive(inputs, &mut key, &mut matrix)
    });
    match answer {
        Ok(counts) => Ok(Answer::Derived {
            key,
            counts,
            matrix_sum: matrix_sum(given, &matrix)?,
        }),
        Err(refusal) => {
            lent::bytes_are_kept("key buffer", &key, 0)?;
            lent::words_are_kept("matrix", &matrix, 0)?;
            Ok(Answer::Refused(refusal))
        }
    }
}

fn ask_check(subject: &impl Subject, given: &Given, stored: &Bytes) -> Result<Answer, String> {
    let mut matrix = lent::words(given.matrix_words);
    let answer = with_inputs(given, |inputs| {
        subject.check(inputs, &stored.to_vec(), &mut matrix)
    });
    match answer {
        Ok(checked) => Ok(Answer::Checked {
            matches: checked.matches,
            counts: checked.counts,
            matrix_sum: matrix_sum(given, &matrix)?,
        }),
        Err(refusal) => {
            lent::words_are_kept("matrix", &matrix, 0)?;
            Ok(Answer::Refused(refusal))
        }
    }
}

fn with_inputs<A>(given: &Given, call: impl FnOnce(&Inputs) -> A) -> A {
    call(&Inputs {
        password: &given.password.to_vec(),
        salt: &given.salt.to_vec(),
        t: given.t,
        r: given.r,
        c: given.c,
        settings: given.settings(),
    })
}

fn matrix_sum(given: &Given, matrix: &[u64]) -> Result<u64, String> {
    let words = given.parameters(0).matrix_words();
    lent::used("matrix", matrix, words).map(checksum::of_words)
}

fn ask_line_read(
    subject: &impl Subject,
    line: &[u8],
    salt_room: u64,
    key_room: u64,
) -> Result<Option<Answer>, String> {
    let mut salt = lent::bytes(salt_room);
    let mut key = lent::bytes(key_room);
    let values = match subject.line_read(line, &mut salt, &mut key) {
        None => return Ok(None),
        Some(Ok(values)) => values,
        Some(Err(refusal)) => {
            lent::bytes_are_kept("salt's output", &salt, 0)?;
            lent::bytes_are_kept("key's output", &key, 0)?;
            return Ok(Some(Answer::Refused(refusal)));
        }
    };
    let salt = lent::written("salt's output", &salt, values.salt_len)?;
    let key = lent::written("key's output", &key, values.key_len)?;
    Ok(Some(Answer::LineRead(LoginValues {
        t: values.t,
        r: values.r,
        c: values.c,
        salt: Bytes::Listed(salt.to_vec()),
        key: Bytes::Listed(key.to_vec()),
    })))
}

fn ask_line_write(
    subject: &impl Subject,
    values: &LoginValues,
    line_room: u64,
) -> Result<Option<Answer>, String> {
    let mut line = lent::bytes(line_room);
    let parts = LineParts {
        t: values.t,
        r: values.r,
        c: values.c,
        salt: &values.salt.to_vec(),
        key: &values.key.to_vec(),
    };
    Ok(match subject.line_write(&parts, &mut line) {
        None => None,
        Some(Ok(len)) => {
            let line = lent::written("line's output", &line, len)?.to_vec();
            Some(Answer::LineWritten { line })
        }
        Some(Err(refusal)) => {
            lent::bytes_are_kept("line's output", &line, 0)?;
            Some(Answer::Refused(refusal))
        }
    })
}

/// Compares two answers; an error names the first field that differs.
pub fn compare(expected: &Answer, found: &Answer) -> Result<(), String> {
    if expected == found {
        return Ok(());
    }
    let (expected, found) = (write::answer(expected), write::answer(found));
    let differing = expected.iter().zip(&found).find(|(x, y)| x != y);
    Err(match differing {
        Some(((name, x), (_, y))) => format!("field {name}: {}", difference(x, y)),
        None => "the two answers do not have the same fields".to_string(),
    })
}

/// Says how two values differ; of long ones, from where on.
fn difference(expected: &str, found: &str) -> String {
    let same = expected.bytes().zip(found.bytes());
    let place = same.take_while(|(x, y)| x == y).count();
    let (start, place) = if expected.len() > 40 {
        (format!("from digit {place} on, "), place)
    } else {
        (String::new(), 0)
    };
    let (expected, found) = (short(&expected[place..]), short(&found[place..]));
    format!("{start}{expected} is due, {found} was found")
}

/// Puts a case's question, compares the answer, and asks the other operations about the same inputs.
pub fn check_case(subject: &impl Subject, case: &Case) -> Result<Coverage, String> {
    let found = ask_if_offered(subject, &case.question)?;
    if let Some(found) = &found {
        compare(&case.answer, found)?;
    }
    let shared = agree(subject, &case.question, &case.answer)?;
    Ok(match found {
        Some(_) => Coverage::Whole,
        None if shared => Coverage::SharedPart,
        None => Coverage::Nothing,
    })
}

/// Asks the operations that share a question's inputs for what they share of its answer, and says whether there was
/// anything to ask: those beside a recorded derivation or one with lanes, the inverse of reading or writing a login line, the
/// cost of what was chosen, and what a book tells of an account.
pub fn agree(subject: &impl Subject, question: &Question, answer: &Answer) -> Result<bool, String> {
    let (given, key_len) = match (question, answer) {
        (Question::DeriveRecorded { given, key_len, .. }, _) => (given, key_len),
        (Question::LineRead { line, .. }, Answer::LineRead(values)) => {
            return agree_on_line(subject, line, values)
        }
        (Question::LineWrite { values, .. }, Answer::LineWritten { line }) => {
            return agree_on_line(subject, line, values)
        }
        (Question::Choose { limits }, _) => {
            return agree_on_choice(subject, limits, answer).map(|()| true)
        }
        (Question::LanesDerive { given, key_len }, _) => {
            return run_lanes::agree(subject, given, *key_len, answer)
        }
        _ => return run_book::agree(subject, question, answer),
    };
    match answer {
        Answer::Recorded { key, counts, .. } => {
            agree_on_key(subject, given, key, *counts).map(|()| true)
        }
        Answer::Refused(refusal) => agree_on_refusal(subject, given, *key_len, *refusal),
        _ => Err("a recorded derivation gave another operation's answer".to_string()),
    }
}

/// The key and the counts are shared; of the end matrix the others leave nothing.
fn agree_on_key(
    subject: &impl Subject,
    given: &Given,
    key: &[u8],
    counts: Counts,
) -> Result<(), String> {
    let key_len = key.len() as u64;
    let cost = cost_question(given, key_len);
    expect(subject, &cost, &Answer::Cost(counts))?;
    let matrix_sum = checksum::of_zero_words(given.parameters(key_len).matrix_words());
    let derived = Answer::Derived {
        key: key.to_vec(),
        counts,
        matrix_sum,
    };
    expect(subject, &derive_question(given, key_len), &derived)?;
    for (stored, matches) in [(key.to_vec(), true), (wrong_key(key), false)] {
        let checked = Answer::Checked {
            matches,
            counts,
            matrix_sum,
        };
        let check = check_question(given, Bytes::Listed(stored));
        expect(subject, &check, &checked)?;
    }
    Ok(())
}

/// A key that differs in one bit of one byte; the place of the byte differs from case to case.
pub(super) fn wrong_key(key: &[u8]) -> Vec<u8> {
    let mut wrong = key.to_vec();
    let place = checksum::of_bytes(key.iter().copied()) % (key.len() as u64).max(1);
    if let Some(byte) = wrong.get_mut(place as usize) {
        *byte ^= 0x10;
    }
    wrong
}

/// Asks the operations that have the check, and says whether there are any; a short record has none.
fn agree_on_refusal(
    subject: &impl Subject,
    given: &Given,
    key_len: u64,
    refusal: Refusal,
) -> Result<bool, String> {
    let mut others = vec![
        derive_question(given, key_len),
        check_question(given, Bytes::Zeros(key_len)),
        cost_question(given, key_len),
    ];
    others.retain(|question| question.checks().contains(&refusal));
    for question in &others {
        expect(subject, question, &Answer::Refused(refusal))?;
    }
    Ok(!others.is_empty())
}

/// An accepted line is written from its values, and they are read from it; outputs that fit exactly are lent.
fn agree_on_line(
    subject: &impl Subject,
    line: &[u8],
    values: &LoginValues,
) -> Result<bool, String> {
    let listed = LoginValues {
        salt: Bytes::Listed(values.salt.to_vec()),
        key: Bytes::Listed(values.key.to_vec()),
        ..values.clone()
    };
    let write = Question::LineWrite {
        values: values.clone(),
        line_room: line.len() as u64,
    };
    let read = Question::LineRead {
        line: line.to_vec(),
        salt_room: values.salt.count(),
        key_room: values.key.count(),
    };
    let line = line.to_vec();
    let wrote = expect_if_offered(subject, &write, &Answer::LineWritten { line })?;
    let has_read = expect_if_offered(subject, &read, &Answer::LineRead(listed))?;
    Ok(wrote || has_read)
}

/// Asks for the cost of what was chosen and of a greater T; where a choice is refused, for the smallest costs.
fn agree_on_choice(subject: &impl Subject, limits: &Limits, answer: &Answer) -> Result<(), String> {
    let fits = |costs: [u64; 3]| {
        let given = limits.parameters(costs);
        let counts = subject.cost(&given, limits.rho)?;
        Ok(counts.rounds <= limits.budget && given.matrix_words() <= limits.matrix_words)
    };
    let agrees = match answer {
        Answer::Chosen(Choice { t, r, c, .. }) => {
            let is_last = t == CHOSEN_TIME_COSTS.end();
            let greater = [t.saturating_add(1), *r, *c];
            fits([*t, *r, *c]) == Ok(true) && (is_last || fits(greater) == Ok(false))
        }
        Answer::Refused(Refusal::Tries) => fits(SMALLEST_COSTS).is_ok(),
        Answer::Refused(Refusal::NothingFits) => fits(SMALLEST_COSTS) == Ok(false),
        Answer::Refused(refusal) => fits(SMALLEST_COSTS) == Err(*refusal),
        _ => return Err("a choice gave another operation's answer".to_string()),
    };
    match agrees {
        true => Ok(()),
        false => Err("cost on the same inputs: it does not bear out the choice".to_string()),
    }
}

fn derive_question(given: &Given, key_len: u64) -> Question {
    let given = given.clone();
    Question::Derive { given, key_len }
}

fn check_question(given: &Given, stored: Bytes) -> Question {
    let given = given.clone();
    Question::Check { given, stored }
}

fn cost_question(given: &Given, key_len: u64) -> Question {
    Question::Cost {
        given: given.parameters(key_len),
        rho: given.settings.map(|settings| settings.rho),
    }
}

fn expect(subject: &impl Subject, question: &Question, expected: &Answer) -> Result<(), String> {
    ask(subject, question)
        .and_then(|found| compare(expected, &found))
        .map_err(|what| on_the_same_inputs(question, &what))
}

/// The same where the program may lack the operation; says whether it has it.
pub(super) fn expect_if_offered(
    subject: &impl Subject,
    question: &Question,
    expected: &Answer,
) -> Result<bool, String> {
    ask_if_offered(subject, question)
        .and_then(|found| match found {
            Some(found) => compare(expected, &found).map(|()| true),
            None => Ok(false),
        })
        .map_err(|what| on_the_same_inputs(question, &what))
}

fn on_the_same_inputs(question: &Question, what: &str) -> String {
    format!("{} on the same inputs: {what}", write::op(question))
}
