//! Putting questions about a book of accounts to a program, and comparing its answers with one another.

use super::case::{Answer, Bytes, Given, LentBook, LoginValues, Question};
use super::run::expect_if_offered;
use super::subject::Subject;
use super::{checksum, lent};
use crate::account::{Account, HEAD_BYTES};
use crate::book;
use crate::refusal::Refusal;

/// Puts a question about a book; None says that the program lacks the operation, or that the question is about no book.
pub fn ask(subject: &impl Subject, question: &Question) -> Result<Option<Answer>, String> {
    match question {
        Question::BookFind { book, number } => {
            let found = subject.book_find(&book.bytes, book.used, *number);
            let answer = |found: Result<u64, Refusal>| {
                found.map_or_else(Answer::Refused, |place| Answer::Found { place })
            };
            Ok(found.map(answer))
        }
        Question::BookAdd {
            book,
            number,
            values,
        } => with_account(*number, values, |account| {
            ask_to_change(book, |bytes| subject.book_add(bytes, book.used, account))
        }),
        Question::BookRemove { book, number } => {
            ask_to_change(book, |bytes| subject.book_remove(bytes, book.used, *number))
        }
        Question::BookCheck {
            password,
            book,
            number,
            matrix_words,
        } => ask_check(subject, password, book, *number, *matrix_words),
        Question::BookAccount { used_part, place } => {
            Ok(subject.book_account(used_part, *place).map(Answer::Account))
        }
        _ => Ok(None),
    }
}

fn with_account<A>(number: u32, values: &LoginValues, call: impl FnOnce(&Account) -> A) -> A {
    call(&Account {
        number,
        t: values.t,
        r: values.r,
        c: values.c,
        salt: &values.salt.to_vec(),
        key: &values.key.to_vec(),
    })
}

/// Lends a copy of a book to a call that may change it.
fn ask_to_change(
    book: &LentBook,
    call: impl FnOnce(&mut [u8]) -> Option<Result<u64, Refusal>>,
) -> Result<Option<Answer>, String> {
    let mut book_after = book.bytes.clone();
    match call(&mut book_after) {
        None => Ok(None),
        Some(Ok(used_after)) => Ok(Some(Answer::Changed {
            used_after,
            book_after,
        })),
        Some(Err(refusal)) => {
            let mut pairs = book.bytes.iter().zip(&book_after);
            match pairs.position(|(before, after)| before != after) {
                Some(place) => Err(format!("byte {place} of the book was changed")),
                None => Ok(Some(Answer::Refused(refusal))),
            }
        }
    }
}

fn ask_check(
    subject: &impl Subject,
    password: &Bytes,
    book: &LentBook,
    number: u32,
    matrix_words: u64,
) -> Result<Option<Answer>, String> {
    let mut matrix = lent::words(matrix_words);
    let password = password.to_vec();
    let checked = match subject.book_check(&password, &book.bytes, book.used, number, &mut matrix) {
        None => return Ok(None),
        Some(Ok(checked)) => checked,
        Some(Err(refusal)) => {
            lent::words_are_kept("matrix", &matrix, 0)?;
            return Ok(Some(Answer::Refused(refusal)));
        }
    };
    let account = account_of(book, number)
        .ok_or("the book has no such account, yet the call was accepted".to_string())?;
    let used_matrix = lent::used("matrix", &matrix, account.parameters().matrix_words())?;
    Ok(Some(Answer::Checked {
        matches: checked.matches,
        counts: checked.counts,
        matrix_sum: checksum::of_words(used_matrix),
    }))
}

/// The account of a number in a good book.
fn account_of(book: &LentBook, number: u32) -> Option<Account<'_>> {
    let used_part = book.bytes.get(..usize::try_from(book.used).ok()?)?;
    let mut accounts = book::decode(used_part)?.into_iter();
    accounts.find(|account| account.number == number)
}

/// Asks what the others tell of an accepted call: what is found is an account of the number, an added one is found as
/// the last, a removed one no more, and a password is checked against an account as against its key. Says whether there
/// was anything to ask.
pub fn agree(subject: &impl Subject, question: &Question, answer: &Answer) -> Result<bool, String> {
    let (other, due) = match (question, answer) {
        (Question::BookFind { book, number }, Answer::Found { place }) => {
            let account = account_of(book, *number).ok_or("the book has no such account")?;
            let used_part = book.bytes[..book.used as usize].to_vec();
            let place = *place;
            let other = Question::BookAccount { used_part, place };
            (other, Answer::Account(account.values()))
        }
        (Question::BookAdd { number, values, .. }, Answer::Changed { used_after, .. }) => {
            let size = HEAD_BYTES + values.salt.count() + values.key.count();
            let place = used_after.saturating_sub(size);
            (find_after(answer, *number)?, Answer::Found { place })
        }
        (Question::BookRemove { number, .. }, Answer::Changed { .. }) => {
            let due = Answer::Refused(Refusal::NoAccount);
            (find_after(answer, *number)?, due)
        }
        (Question::BookCheck { .. }, Answer::Checked { .. }) => {
            (check_question(question)?, answer.clone())
        }
        _ => return Ok(false),
    };
    expect_if_offered(subject, &other, &due)
}

/// The search for an account in the book that a call left.
fn find_after(answer: &Answer, number: u32) -> Result<Question, String> {
    let Answer::Changed {
        used_after,
        book_after,
    } = answer
    else {
        return Err("the call left no book".to_string());
    };
    let book = LentBook {
        bytes: book_after.clone(),
        used: *used_after,
    };
    Ok(Question::BookFind { book, number })
}

/// The check of an account's key, in the place of the check against the account.
fn check_question(question: &Question) -> Result<Question, String> {
    let Question::BookCheck {
        password,
        book,
        number,
        matrix_words,
    } = question
    else {
        return Err("no account was checked".to_string());
    };
    let account = account_of(book, *number).ok_or("the book has no such account")?;
    Ok(Question::Check {
        given: Given {
            password: password.clone(),
            salt: Bytes::Listed(account.salt.to_vec()),
            t: account.t,
            r: account.r,
            c: account.c,
            settings: None,
            matrix_words: *matrix_words,
        },
        stored: Bytes::Listed(account.key.to_vec()),
    })
}
