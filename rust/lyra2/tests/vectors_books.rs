//! The vectors about books of accounts put to the safe crate. The runs look at the lent bytes too.

mod common;

use common::{settings, size};
use lyra2::{Account, Book, Parameters};
use lyra2_reference::vectors::{read, run, Coverage, Question, Subject};
use lyra2_reference::{AccountValues, Checked, Counts, Inputs, Refusal};

const FILE: &str = concat!(env!("CARGO_MANIFEST_DIR"), "/../../vectors/lyra2.txt");

/// It keeps books, and checks keys.
struct Safe;

fn refusal(refusal: lyra2::Refusal) -> Refusal {
    Refusal::from_number(refusal.number().into()).expect("both packages have the same numbers")
}

fn checked(answer: lyra2::Checked) -> Checked {
    Checked {
        matches: answer.same,
        counts: Counts {
            full: answer.counts.full,
            reduced: answer.counts.reduced,
            rounds: answer.counts.rounds,
        },
    }
}

/// Changes a book; the answer is its used length, which has to be the old one after a refusal.
fn changed(
    bytes: &mut [u8],
    used: u64,
    change: impl FnOnce(&mut Book<&mut [u8]>) -> Result<(), lyra2::Refusal>,
) -> Option<Result<u64, Refusal>> {
    let mut book = Book::new(bytes, size(used));
    let answer = change(&mut book);
    let used_after = book.used() as u64;
    assert!(answer.is_ok() || used_after == used);
    Some(answer.map(|()| used_after).map_err(refusal))
}

impl Subject for Safe {
    fn derive(&self, _: &Inputs, _: &mut [u8], _: &mut [u64]) -> Result<Counts, Refusal> {
        unreachable!("no line about a book asks for this")
    }

    /// The check of an account's key, which has to come to the same as that of the account.
    fn check(
        &self,
        inputs: &Inputs,
        stored: &[u8],
        matrix: &mut [u64],
    ) -> Result<Checked, Refusal> {
        let (password, salt) = (inputs.password, inputs.salt);
        let answer = lyra2::check(password, salt, settings(inputs), stored, matrix);
        answer.map(checked).map_err(refusal)
    }

    fn cost(&self, _: &lyra2_reference::Parameters, _: u64) -> Result<Counts, Refusal> {
        unreachable!("no line about a book asks for this")
    }

    fn walk(&self, _: u64, _: u64) -> Result<u64, Refusal> {
        unreachable!("no line about a book asks for this")
    }

    fn book_find(&self, book: &[u8], used: u64, number: u32) -> Option<Result<u64, Refusal>> {
        let found = Book::new(book, size(used)).find(number);
        Some(found.map(|place| place as u64).map_err(refusal))
    }

    fn book_add(
        &self,
        book: &mut [u8],
        used: u64,
        account: &lyra2_reference::Account,
    ) -> Option<Result<u64, Refusal>> {
        let parameters = Parameters {
            time: size(account.t),
            rows: size(account.r),
            columns: size(account.c),
        };
        let account = Account {
            number: account.number,
            parameters,
            salt: account.salt,
            key: account.key,
        };
        changed(book, used, |book| book.add(account))
    }

    fn book_remove(&self, book: &mut [u8], used: u64, number: u32) -> Option<Result<u64, Refusal>> {
        changed(book, used, |book| book.remove(number))
    }

    fn book_check(
        &self,
        password: &[u8],
        book: &[u8],
        used: u64,
        number: u32,
        matrix: &mut [u64],
    ) -> Option<Result<Checked, Refusal>> {
        let answer = Book::new(book, size(used)).check(password, number, matrix);
        Some(answer.map(checked).map_err(refusal))
    }

    fn book_account(&self, used_part: &[u8], place: u64) -> Option<AccountValues> {
        let book = Book::new(used_part, used_part.len());
        let values = |account: Account| AccountValues {
            size: account.size() as u64,
            number: account.number,
            t: account.parameters.time as u64,
            r: account.parameters.rows as u64,
            c: account.parameters.columns as u64,
            salt_len: account.salt.len() as u64,
            key_len: account.key.len() as u64,
        };
        Some(book.account(size(place)).map(values).unwrap_or_default())
    }
}

fn is_about_a_book(question: &Question) -> bool {
    matches!(
        question,
        Question::BookFind { .. }
            | Question::BookAdd { .. }
            | Question::BookRemove { .. }
            | Question::BookCheck { .. }
            | Question::BookAccount { .. }
    )
}

#[test]
fn every_line_about_a_book() {
    let file = std::fs::read(FILE).expect("the repository has its vectors file");
    let mut lines = read(&file).expect("the vectors file can be read");
    lines.retain(|(_, case)| is_about_a_book(&case.question));
    for (line, case) in &lines {
        let outcome = run::check_case(&Safe, case);
        assert_eq!(outcome, Ok(Coverage::Whole), "line {line}");
    }
    assert!(lines.len() >= 800, "{}", lines.len());
}
