//! Random questions about books of a few accounts, of which about a half are accepted.

use super::case::{Bytes, LentBook, LoginValues, Question};
use super::random::Random;
use crate::account::{Account, HEAD_BYTES};
use crate::{book, derive};

/// The most accounts of a random book.
const MOST_ACCOUNTS: u64 = 6;
/// A matrix of more words is not lent, so that a question takes no long time.
const MOST_MATRIX_WORDS: u64 = 20_000;

/// A question to any of the operations.
pub fn question(random: &mut Random) -> Question {
    let password_len = match random.between(1, 20) {
        1 => random.one_of(&[1023, 1024, 1025, 1026]),
        2 => random.between(0, 1024),
        _ => random.between(0, 40),
    };
    let password = random.bytes(password_len);
    let mut book = book(random, &password);
    if random.once_in(4) {
        damage(random, &mut book);
    }
    let number = number(random);
    match random.between(1, 6) {
        1 => Question::BookFind { book, number },
        2 | 3 => Question::BookAdd {
            number,
            values: values(random),
            book,
        },
        4 => Question::BookRemove { book, number },
        5 => check(random, password, book, number),
        _ => at_place(random, book, number),
    }
}

/// A number that other draws are likely to give as well; some of them differ in their highest byte alone.
pub fn number(random: &mut Random) -> u32 {
    let all = [0, 1, 2, 3, 4, 5, 1 << 24, 1 << 24 | 1, u32::MAX];
    random.one_of(&all)
}

/// The rest of an account; seldom some of the values are outside of their limits.
pub fn values(random: &mut Random) -> LoginValues {
    let salt_len = random.mostly(8, 12, 64, 8);
    let key_len = random.mostly(1, 8, 200, 8);
    let mut values = LoginValues {
        t: random.mostly(0, 2, 255, 8),
        r: random.mostly(3, 9, 16_384, 8),
        c: random.mostly(1, 3, 256, 8),
        salt: Bytes::Listed(random.bytes(salt_len)),
        key: Bytes::Listed(random.bytes(key_len)),
    };
    if random.once_in(12) {
        for _ in 0..random.between(1, 3) {
            spoil(random, &mut values);
        }
    }
    values
}

fn spoil(random: &mut Random, values: &mut LoginValues) {
    match random.between(1, 5) {
        1 => values.key = Bytes::Zeros(random.one_of(&[0, 1025, 1 << 16 | 1])),
        2 => values.salt = Bytes::Zeros(random.one_of(&[0, 7, 65, 1 << 8 | 8])),
        3 => values.t = random.one_of(&[256, 1 << 32, u64::MAX]),
        4 => values.r = random.one_of(&[0, 2, 16_385, 1 << 16 | 3, u64::MAX]),
        _ => values.c = random.one_of(&[0, 257, 1 << 16 | 1, u64::MAX]),
    }
}

/// The bytes of an account, of which the key is that of the password half the time.
fn account(random: &mut Random, number: u32, password: &[u8]) -> Vec<u8> {
    let values = values(random);
    let (salt, mut key) = (values.salt.to_vec(), values.key.to_vec());
    let account = Account {
        number,
        t: values.t,
        r: values.r,
        c: values.c,
        salt: &salt,
        key: &[],
    };
    let words = account.parameters().matrix_words();
    if random.once_in(2) && words <= MOST_MATRIX_WORDS {
        // Where the derivation is refused, the key stays another one.
        let _ = derive(
            &account.inputs(password),
            &mut key,
            &mut vec![0; words as usize],
        );
    }
    Account {
        key: &key,
        ..account
    }
    .encode()
}

/// A good book with a few bytes more than are used, or none.
fn book(random: &mut Random, password: &[u8]) -> LentBook {
    let mut bytes = Vec::new();
    for _ in 0..random.between(0, MOST_ACCOUNTS) {
        let number = number(random);
        let longer = [bytes.clone(), account(random, number, password)].concat();
        if book::decode(&longer).is_some() {
            bytes = longer;
        }
    }
    let used = bytes.len() as u64;
    let spare = random.mostly(0, 60, 300, 8);
    let more = random.bytes(spare);
    bytes.extend(more);
    LentBook { bytes, used }
}

/// Changes a byte or the used length, or puts an account's number into another one. The book may still be a good one.
pub fn damage(random: &mut Random, book: &mut LentBook) {
    let len = book.bytes.len() as u64;
    match random.between(1, 5) {
        1 => book.used = random.between(0, len),
        // Past the slice, though not if cut to 32 bits.
        2 if random.once_in(2) => book.used += 1 << 32,
        2 => book.used = len + (random.word() >> random.between(1, 63)),
        3 => {
            let place = random.between(0, len.saturating_sub(HEAD_BYTES)) as usize;
            if let Some(mark) = book.bytes.get_mut(place..place + 2) {
                mark.copy_from_slice(b"AC");
            }
        }
        4 => {
            let number = number(random).to_le_bytes();
            if let Some(first) = book.bytes.get_mut(2..6) {
                first.copy_from_slice(&number);
            }
        }
        _ => {
            let place = random.between(0, len.min(60)) as usize;
            let byte = random.word() as u8;
            if let Some(old) = book.bytes.get_mut(place) {
                *old = byte;
            }
        }
    }
}

/// A check with a matrix that fits an account of the book, or one that is too short.
fn check(random: &mut Random, password: Vec<u8>, book: LentBook, number: u32) -> Question {
    let used_part = book.bytes.get(..book.used as usize);
    let accounts = used_part.and_then(book::decode).unwrap_or_default();
    let account = accounts.iter().find(|account| account.number == number);
    let words = account.map_or(36, |account| account.parameters().matrix_words());
    let matrix_words = match random.between(1, 8) {
        1 => words.saturating_sub(1).min(MOST_MATRIX_WORDS),
        2 => (words + random.between(0, 20)).min(MOST_MATRIX_WORDS),
        _ => words.min(MOST_MATRIX_WORDS),
    };
    Question::BookCheck {
        password: Bytes::Listed(password),
        book,
        number,
        matrix_words,
    }
}

/// What stands at the place of an account, at another one of the used part, or anywhere.
fn at_place(random: &mut Random, book: LentBook, number: u32) -> Question {
    let used = book.used.min(book.bytes.len() as u64);
    let found = crate::book_find(&book.bytes, book.used, number);
    let place = match random.between(1, 6) {
        1 => random.between(0, used),
        2 => random.word() >> random.between(0, 63),
        3 => found.unwrap_or(0) + (1 << 32),
        _ => found.unwrap_or(0),
    };
    Question::BookAccount {
        used_part: book.bytes[..used as usize].to_vec(),
        place,
    }
}
