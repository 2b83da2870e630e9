//! The questions of the vectors file about books of accounts, group by group. Damaged books, and the order of the refusals,
//! stand in `books_refused`.

use super::case::{Bytes, LentBook, LoginValues, Question};
use super::random::Random;
use super::refused::without_repeats;
use super::{books_refused, random_book};
use crate::account::Account;
use crate::{book, derive};

/// Bytes for salts and keys, with the mark among them.
pub(super) static TEXT: [u8; 1100] = text();

const fn text() -> [u8; 1100] {
    let mut text = [0; 1100];
    let mut place = 0;
    while place < text.len() {
        text[place] = match place % 8 {
            5 => b'A',
            6 => b'C',
            _ => (place % 251) as u8,
        };
        place += 1;
    }
    text
}

/// An account by its number, its T, R and C, and the lengths of its salt and its key.
pub(super) fn account(
    number: u32,
    [t, r, c]: [u64; 3],
    [salt, key]: [usize; 2],
) -> Account<'static> {
    // The key does not begin as the salt does.
    let (salt, key) = (&TEXT[..salt], &TEXT[3..3 + key]);
    Account {
        number,
        t,
        r,
        c,
        salt,
        key,
    }
}

/// Three accounts of 23, 25 and 27 bytes, which the groups vary. Their numbers, R and C show the order of the bytes.
pub(super) fn accounts() -> [Account<'static>; 3] {
    [
        account(7, [0, 3, 1], [8, 1]),
        account(0x0403_0201, [1, 0x0102, 256], [9, 2]),
        account(u32::MAX, [255, 16_384, 2], [10, 3]),
    ]
}

/// A number that none of the three accounts has.
pub(super) const ABSENT: u32 = 0x0102_0304;

/// A book of some accounts and so many bytes more, none of which is zero.
pub(super) fn book_of(accounts: &[Account], spare: usize) -> LentBook {
    let mut bytes = book::encode(accounts);
    let used = bytes.len() as u64;
    bytes.extend((0..spare).map(|place| 0xe1 + (place % 30) as u8));
    LentBook { bytes, used }
}

pub(super) fn find(book: &LentBook, number: u32) -> Question {
    let book = book.clone();
    Question::BookFind { book, number }
}

pub(super) fn remove(book: &LentBook, number: u32) -> Question {
    let book = book.clone();
    Question::BookRemove { book, number }
}

pub(super) fn add(book: &LentBook, account: &Account) -> Question {
    Question::BookAdd {
        book: book.clone(),
        number: account.number,
        values: LoginValues {
            t: account.t,
            r: account.r,
            c: account.c,
            salt: Bytes::Listed(account.salt.to_vec()),
            key: Bytes::Listed(account.key.to_vec()),
        },
    }
}

pub(super) fn check(password: &[u8], book: &LentBook, number: u32, matrix_words: u64) -> Question {
    Question::BookCheck {
        password: Bytes::Listed(password.to_vec()),
        book: book.clone(),
        number,
        matrix_words,
    }
}

pub(super) fn at_place(used_part: &[u8], place: u64) -> Question {
    let used_part = used_part.to_vec();
    Question::BookAccount { used_part, place }
}

/// All groups, one after the other.
pub fn questions() -> Vec<Question> {
    let groups = [
        examples(),
        numbers(),
        rooms(),
        replaced(),
        removed(),
        full_of_accounts(),
        past_the_used_part(),
        costs_of_the_new_account(),
        lengths_of_the_new_account(),
        places(),
        checks(),
        books_refused::questions(),
        random(),
    ];
    without_repeats(groups.concat())
}

/// The three accounts added one by one, found, read and removed.
fn examples() -> Vec<Question> {
    let three = accounts();
    let mut questions = Vec::new();
    for (count, account) in three.iter().enumerate() {
        let spare = book::encode(&three[count..]).len() + 4;
        questions.push(add(&book_of(&three[..count], spare), account));
    }
    let book = book_of(&three, 4);
    for account in &three {
        questions.push(find(&book, account.number));
    }
    for place in [0, 23, 48, 75] {
        let used_part = &book.bytes[..book.used as usize];
        questions.push(at_place(used_part, place));
    }
    for account in &three {
        questions.push(remove(&book, account.number));
    }
    questions.push(find(&book, ABSENT));
    questions.push(remove(&book, ABSENT));
    questions
}

/// Numbers that are the same if cut to fewer bits, and those at both ends.
const NUMBERS: [u32; 10] = [
    1,
    1 << 8 | 1,
    1 << 16 | 1,
    1 << 24 | 1,
    1 << 31 | 1,
    0,
    u32::MAX,
    u32::MAX >> 1,
    0x0102_0304,
    0x0403_0201,
];

/// A book with all of these numbers: each is found, and not where it is the one that is missing; some are removed, or replaced.
fn numbers() -> Vec<Question> {
    let each = |number: &u32| account(*number, [1, 3, 1], [8, 1]);
    let all: Vec<Account> = NUMBERS.iter().map(each).collect();
    let mut questions = Vec::new();
    for (place, number) in NUMBERS.iter().enumerate() {
        let book = book_of(&all, 0);
        questions.push(find(&book, *number));
        // Without the account its number is none of the book's.
        let others = [&all[..place], &all[place + 1..]].concat();
        questions.push(find(&book_of(&others, 0), *number));
    }
    for number in [0, u32::MAX, 0x0403_0201] {
        let book = book_of(&all, 3);
        questions.push(remove(&book, number));
        questions.push(add(&book, &account(number, [2, 4, 2], [9, 2])));
    }
    questions
}

/// Books that have exactly enough bytes for a new account, one too few, and more.
fn rooms() -> Vec<Question> {
    let three = accounts();
    let mut questions = Vec::new();
    for count in 0..3 {
        let size = three[count].values().size as usize;
        for spare in [0, 1, size - 1, size, size + 1, size + 30] {
            questions.push(add(&book_of(&three[..count], spare), &three[count]));
        }
    }
    // No book at all, and an account that leaves nothing of a longer book.
    let nothing = book_of(&[], 0);
    questions.extend([find(&nothing, 0), remove(&nothing, 0)]);
    questions.push(add(&nothing, &three[0]));
    questions
}

/// Each account of a book in turn gives way to a longer, a shorter, another and the same one, with all rooms about the length
/// that is needed.
fn replaced() -> Vec<Question> {
    let three = accounts();
    let mut questions = Vec::new();
    for old in &three {
        let [salt, key] = [old.salt.len(), old.key.len()];
        let numbers = [2, 0x0201, 3];
        let lengths = [
            [salt, key],
            [salt + 1, key],
            [salt, key + 6],
            [salt - usize::from(salt > 8), key],
            [8, 1],
        ];
        let used = book::encode(&three).len();
        for new in lengths.map(|lengths| account(old.number, numbers, lengths)) {
            let needed = used + book::encode(&[new]).len() - book::encode(&[*old]).len();
            let least = needed.saturating_sub(used);
            questions.push(add(&book_of(&three, least), &new));
            questions.push(add(&book_of(&three, least + 5), &new));
            if let Some(short) = least.checked_sub(1) {
                questions.push(add(&book_of(&three, short), &new));
                questions.push(add(&book_of(&three, 0), &new));
            }
        }
        questions.push(add(&book_of(&three, 3), old));
        questions.push(add(
            &book_of(&[*old], 3),
            &account(old.number, [9, 9, 9], [8, 1]),
        ));
    }
    questions
}

/// Each account of books of one to three, with no byte to spare and with some.
fn removed() -> Vec<Question> {
    let three = accounts();
    let mut questions = Vec::new();
    for count in 1..=3 {
        for spare in [0, 1, 30] {
            let book = book_of(&three[..count], spare);
            let own = three[..count].iter();
            questions.extend(own.map(|account| remove(&book, account.number)));
        }
    }
    // A short account before a long one and the other way round: the moved bytes overlap their new place, or do not.
    let (short, long) = (
        account(1, [0, 3, 1], [8, 1]),
        account(2, [0, 3, 1], [64, 40]),
    );
    for two in [[short, long], [long, short]] {
        let book = book_of(&two, 2);
        questions.extend([remove(&book, 1), remove(&book, 2)]);
        questions.push(add(&book, &account(1, [0, 3, 1], [20, 20])));
        questions.push(add(&book, &account(2, [0, 3, 1], [20, 20])));
    }
    questions
}

/// Books of many small accounts, found by the first, a middle and the last of them.
fn full_of_accounts() -> Vec<Question> {
    let mut questions = Vec::new();
    for count in [33, 65] {
        let many = books_refused::many(count);
        let book = book_of(&many, 0);
        for place in [0, count / 2, count - 1] {
            questions.push(find(&book, many[place].number));
        }
        questions.push(remove(&book, many[count / 2].number));
    }
    questions
}

/// What follows the used part looks as an account does, or is zeros: neither is looked at, and it stays.
fn past_the_used_part() -> Vec<Question> {
    let [first, second, third] = accounts();
    let whole = book::encode(&[first, second, third]);
    let twice = book::encode(&[first, second, first]);
    let mut zeros = book::encode(&[first, second]);
    zeros.extend([0; 27]);
    let mut questions = Vec::new();
    for bytes in [whole, twice, zeros] {
        for used in [0, 48] {
            let bytes = bytes.clone();
            let book = LentBook { bytes, used };
            questions.push(find(&book, third.number));
            questions.push(remove(&book, first.number));
            questions.push(add(&book, &account(third.number, [1, 3, 1], [8, 1])));
            questions.push(add(&book, &account(first.number, [1, 3, 1], [8, 1])));
        }
    }
    questions
}

/// T, R and C at their limits, and beyond them; some values would pass if cut to fewer bits.
fn costs_of_the_new_account() -> Vec<Question> {
    let book = book_of(&accounts()[..1], 24);
    let mut new = Vec::new();
    for t in [0, 1, 255, 256, 257, 1 << 32, u64::MAX] {
        new.push(account(1, [t, 3, 1], [8, 1]));
    }
    for r in [
        0,
        2,
        3,
        0x0102,
        16_384,
        16_385,
        1 << 16 | 3,
        1 << 40 | 3,
        u64::MAX,
    ] {
        new.push(account(1, [1, r, 1], [8, 1]));
    }
    for c in [0, 1, 0x0100, 257, 1 << 16 | 1, 1 << 32 | 1, u64::MAX] {
        new.push(account(1, [1, 3, c], [8, 1]));
    }
    new.iter().map(|new| add(&book, new)).collect()
}

/// Salts and keys in the same way.
fn lengths_of_the_new_account() -> Vec<Question> {
    let usual = [1, 3, 1];
    let mut questions = Vec::new();
    for salt in [0, 7, 8, 9, 63, 64, 65, 1 << 8, 1 << 8 | 8] {
        let book = book_of(&accounts()[..1], 14 + 65 + 1);
        questions.push(add(&book, &account(1, usual, [salt, 1])));
    }
    for key in [0, 1, 2, 255, 256, 257, 1024, 1025] {
        let spare = if key < 300 {
            14 + 8 + 257
        } else {
            14 + 8 + 1025
        };
        questions.push(add(&book_of(&[], spare), &account(1, usual, [8, key])));
    }
    for key in [1 << 16 | 1, 1 << 17] {
        let book = book_of(&accounts()[..1], 24);
        let mut question = add(&book, &account(1, usual, [8, 1]));
        if let Question::BookAdd { values, .. } = &mut question {
            values.key = Bytes::Zeros(key);
        }
        questions.push(question);
    }
    questions
}

/// The places of a small book where an account or the mark within a salt stands, those around them, and places past it.
fn places() -> Vec<Question> {
    let [first, second, _] = accounts();
    let bytes = book::encode(&[first, second]);
    let within = (0..3).chain(12..25).chain(35..38).chain(41..44);
    let past = [47, 48, 49, 1 << 32 | 23, 1 << 63, u64::MAX - 22, u64::MAX];
    let all = within.chain(past);
    let mut questions: Vec<Question> = all.map(|place| at_place(&bytes, place)).collect();
    // An account cut off everywhere, and one that stands among other bytes.
    for cut in 0..second.values().size as usize {
        questions.push(at_place(&bytes[..23 + cut], 23));
    }
    let among = [b"ACA", &bytes[..], b"A", &bytes[23..]].concat();
    for place in [0, 2, 3, 26, 51, 52] {
        questions.push(at_place(&among, place));
    }
    questions.push(at_place(b"", 0));
    questions
}

/// Passwords against accounts whose keys are those of a password, with the least costs and with somewhat more.
fn checks() -> Vec<Question> {
    let mut questions = Vec::new();
    let wrong = [&b""[..], b"Password", b"password\0"];
    for (costs, lengths) in [
        ([0, 3, 1], [8, 32]),
        ([1, 3, 1], [8, 32]),
        ([1, 3, 1], [64, 1]),
        ([0, 3, 2], [9, 97]),
        ([2, 4, 1], [16, 96]),
    ] {
        let mut book = book_with_key(b"password", costs, lengths);
        let words = 12 * costs[1] * costs[2];
        questions.push(check(b"password", &book, 5, words));
        let others = wrong.iter();
        questions.extend(others.map(|password| check(password, &book, 5, words)));
        for words in [words - 1, words + 40] {
            questions.push(check(b"password", &book, 5, words));
        }
        // Another byte in the stored key, in the salt, and one more visit.
        let first = 23;
        for place in [14 + lengths[0], 14 + lengths[0] + lengths[1] - 1, 14] {
            let mut changed = book.clone();
            changed.bytes[first + place] ^= 0x40;
            questions.push(check(b"password", &changed, 5, words));
        }
        book.bytes[first + 6] += 1;
        questions.push(check(b"password", &book, 5, words));
    }
    for len in [0, 1, 31, 32, 1024, 1025] {
        let password = &TEXT[..len];
        let book = book_with_key(password, [1, 3, 1], [8, 16]);
        questions.push(check(password, &book, 5, 36));
    }
    questions
}

/// A book of three accounts of which the second has the key of a password. The others have it too, but ask for other costs.
pub(super) fn book_with_key(password: &[u8], costs: [u64; 3], lengths: [usize; 2]) -> LentBook {
    let mut own = account(5, costs, lengths);
    let mut key = vec![0; lengths[1]];
    let words = own.parameters().matrix_words();
    // A password that is too long has no key; any other one will do.
    let _ = derive(
        &own.inputs(password),
        &mut key,
        &mut vec![0; words as usize],
    );
    own.key = &key;
    let before = account(4, [3, 16_384, 256], [8, 1]);
    let after = Account {
        number: 6,
        t: 9,
        ..own
    };
    book_of(&[before, own, after], 2)
}

fn random() -> Vec<Question> {
    let mut random = Random::new(52);
    (0..60)
        .map(|_| random_book::question(&mut random))
        .collect()
}
