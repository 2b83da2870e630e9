//! Putting questions about lanes to a program, and comparing its answers with one another.

use super::case::{Answer, Bytes, LanesGiven, Question};
use super::run::{expect_if_offered, wrong_key};
use super::subject::Subject;
use super::{checksum, lent};
use crate::LaneInputs;

/// Puts a question about lanes; None says that the program lacks the operation, or that the question is not about lanes.
pub fn ask(subject: &impl Subject, question: &Question) -> Result<Option<Answer>, String> {
    match question {
        Question::LanesDerive { given, key_len } => ask_derive(subject, given, *key_len),
        Question::LanesCheck { given, stored } => ask_check(subject, given, stored),
        Question::LanesCost { given, p } => {
            let counts = subject.lanes_cost(given, *p);
            Ok(counts.map(|counts| counts.map_or_else(Answer::Refused, Answer::Cost)))
        }
        _ => Ok(None),
    }
}

fn ask_derive(
    subject: &impl Subject,
    given: &LanesGiven,
    key_len: u64,
) -> Result<Option<Answer>, String> {
    let mut key = lent::bytes(key_len);
    let mut matrix = lent::words(given.matrix_words);
    let answer = with_inputs(given, |inputs| {
        subject.lanes_derive(inputs, &mut key, &mut matrix)
    });
    match answer {
        None => Ok(None),
        Some(Ok(counts)) => Ok(Some(Answer::Derived {
            key,
            counts,
            matrix_sum: matrix_sum(given, &matrix)?,
        })),
        Some(Err(refusal)) => {
            lent::bytes_are_kept("key buffer", &key, 0)?;
            lent::words_are_kept("matrix", &matrix, 0)?;
            Ok(Some(Answer::Refused(refusal)))
        }
    }
}

fn ask_check(
    subject: &impl Subject,
    given: &LanesGiven,
    stored: &Bytes,
) -> Result<Option<Answer>, String> {
    let mut matrix = lent::words(given.matrix_words);
    let answer = with_inputs(given, |inputs| {
        subject.lanes_check(inputs, &stored.to_vec(), &mut matrix)
    });
    match answer {
        None => Ok(None),
        Some(Ok(checked)) => Ok(Some(Answer::Checked {
            matches: checked.matches,
            counts: checked.counts,
            matrix_sum: matrix_sum(given, &matrix)?,
        })),
        Some(Err(refusal)) => {
            lent::words_are_kept("matrix", &matrix, 0)?;
            Ok(Some(Answer::Refused(refusal)))
        }
    }
}

fn with_inputs<A>(given: &LanesGiven, call: impl FnOnce(&LaneInputs) -> A) -> A {
    call(&LaneInputs {
        password: &given.password.to_vec(),
        salt: &given.salt.to_vec(),
        t: given.t,
        r: given.r,
        c: given.c,
        p: given.p,
    })
}

fn matrix_sum(given: &LanesGiven, matrix: &[u64]) -> Result<u64, String> {
    let words = given.parameters(0).matrix_words();
    lent::used("matrix", matrix, words).map(checksum::of_words)
}

/// Asks the check and the cost question for what they share of a derivation's answer, and says whether there are any: the
/// check knows the key and no other, the counts are the same, and so are the refusals.
pub fn agree(
    subject: &impl Subject,
    given: &LanesGiven,
    key_len: u64,
    answer: &Answer,
) -> Result<bool, String> {
    let mut others = Vec::new();
    match answer {
        Answer::Derived {
            key,
            counts,
            matrix_sum,
        } => {
            others.push((cost(given, key_len), Answer::Cost(*counts)));
            for (stored, matches) in [(key.to_vec(), true), (wrong_key(key), false)] {
                let checked = Answer::Checked {
                    matches,
                    counts: *counts,
                    matrix_sum: *matrix_sum,
                };
                others.push((check(given, Bytes::Listed(stored)), checked));
            }
        }
        Answer::Refused(refusal) => {
            let mut questions = vec![check(given, Bytes::Zeros(key_len)), cost(given, key_len)];
            questions.retain(|question| question.checks().contains(refusal));
            others.extend(questions.into_iter().map(|other| (other, answer.clone())));
        }
        _ => return Err("a derivation with lanes gave another operation's answer".to_string()),
    }
    let mut asked = false;
    for (question, due) in &others {
        asked |= expect_if_offered(subject, question, due)?;
    }
    Ok(asked)
}

fn check(given: &LanesGiven, stored: Bytes) -> Question {
    let given = given.clone();
    Question::LanesCheck { given, stored }
}

fn cost(given: &LanesGiven, key_len: u64) -> Question {
    Question::LanesCost {
        given: given.parameters(key_len),
        p: given.p,
    }
}
