//! The books of accounts in the vectors file: that they cover what they should, that their refusals follow the order, and
//! that a call changes no byte that it should keep.

mod common;

use lyra2_reference::vectors::{write, Answer, Case, LentBook, LoginValues, Question};
use lyra2_reference::Refusal;
use std::collections::BTreeSet;
use std::ops::RangeInclusive;

/// The cases that request #110 added.
const BOOKS: RangeInclusive<u64> = 5973..=6779;

fn cases() -> Vec<Case> {
    let cases = common::cases().into_iter().map(|(_, case)| case);
    cases
        .filter(|case| write::op(&case.question).starts_with("book_"))
        .collect()
}

#[test]
fn books_stand_together() {
    for (_, case) in common::cases() {
        let is_book = write::op(&case.question).starts_with("book_");
        assert_eq!(is_book, BOOKS.contains(&case.number));
    }
}

/// The number of bytes of the account at a place, its number and the words of its matrix, if there is one.
fn account(bytes: &[u8], place: usize) -> Option<(usize, u32, u64)> {
    let head = bytes.get(place..place + 14)?;
    let two = |at: usize| u64::from(head[at]) + 256 * u64::from(head[at + 1]);
    let [r, c, key] = [7, 9, 12].map(two);
    let salt = u64::from(head[11]);
    let size = 14 + (salt + key) as usize;
    let within = (3..=16_384).contains(&r)
        && (1..=256).contains(&c)
        && (8..=64).contains(&salt)
        && (1..=1024).contains(&key);
    let number = two(2) + 65_536 * two(4);
    let is_whole = head.starts_with(b"AC") && place + size <= bytes.len();
    (is_whole && within).then_some((size, number as u32, 12 * r * c))
}

/// The accounts of a book that is good, each with its place.
fn accounts(book: &LentBook) -> Option<Vec<(usize, u32, u64)>> {
    let used_part = book.bytes.get(..usize::try_from(book.used).ok()?)?;
    let (mut accounts, mut place) = (Vec::new(), 0);
    while place < used_part.len() {
        let (size, number, words) = account(used_part, place)?;
        accounts.push((size, number, words));
        place += size;
    }
    let numbers: BTreeSet<u32> = accounts.iter().map(|account| account.1).collect();
    (numbers.len() == accounts.len()).then_some(accounts)
}

/// The size and the words of the account of a number, in a book that may be damaged from some place on.
fn readable(book: &LentBook, number: u32) -> Option<(usize, u64)> {
    let len = book.bytes.len().min(book.used as usize);
    let mut place = 0;
    while let Some((size, own, words)) = account(&book.bytes[..len], place) {
        if own == number {
            return Some((size, words));
        }
        place += size;
    }
    None
}

/// The bytes that a book has after an account is added.
fn needed(book: &LentBook, number: u32, values: &LoginValues) -> usize {
    let old = readable(book, number).map_or(0, |(size, _)| size);
    let new = 14 + (values.salt.count() + values.key.count()) as usize;
    // A used length that passes the slice is refused before the room is looked at.
    book.bytes.len().min(book.used as usize) - old + new
}

fn book(question: &Question) -> Option<(&LentBook, u32)> {
    match question {
        Question::BookFind { book, number }
        | Question::BookAdd { book, number, .. }
        | Question::BookRemove { book, number }
        | Question::BookCheck { book, number, .. } => Some((book, *number)),
        _ => None,
    }
}

/// Whether the condition of a check holds, also where another check comes first.
fn holds(check: Refusal, question: &Question) -> bool {
    let Some((book, number)) = book(question) else {
        return false;
    };
    match (check, question) {
        (Refusal::DamagedBook, _) => accounts(book).is_none(),
        (Refusal::NoAccount, _) => readable(book, number).is_none(),
        (Refusal::PasswordLength, Question::BookCheck { password, .. }) => password.count() > 1024,
        (Refusal::MatrixWords, Question::BookCheck { matrix_words, .. }) => {
            *matrix_words < readable(book, number).map_or(36, |(_, words)| words)
        }
        (_, Question::BookAdd { values, .. }) => match check {
            Refusal::KeyLength => values.key.count() == 0 || values.key.count() > 1024,
            Refusal::SaltTooShort => values.salt.count() < 8,
            Refusal::SaltTooLong => values.salt.count() > 64,
            Refusal::TimeCost => values.t > 255,
            Refusal::Rows => values.r < 3 || values.r > 16_384,
            Refusal::Columns => values.c == 0 || values.c > 256,
            _ => needed(book, number, values) > book.bytes.len(),
        },
        _ => panic!("{check:?} is no check of {}", write::op(question)),
    }
}

fn refused_with(answer: &Answer) -> Option<Refusal> {
    match answer {
        Answer::Refused(refusal) => Some(*refusal),
        _ => None,
    }
}

#[test]
fn refusals_follow_the_order_of_the_checks() {
    for case in cases() {
        let mut order = case.question.checks().iter();
        let due = order.find(|check| holds(**check, &case.question));
        assert_eq!(
            refused_with(&case.answer),
            due.copied(),
            "case {}",
            case.number
        );
    }
}

/// Such a case shows a program that makes the later check first.
#[test]
fn every_check_is_answered_alone_and_where_a_later_one_holds_too() {
    for op in ["book_find", "book_add", "book_remove", "book_check"] {
        let mut cases = cases();
        cases.retain(|case| write::op(&case.question) == op);
        let order = cases[0].question.checks();
        for (place, first) in order.iter().enumerate() {
            let refused = |case: &Case| refused_with(&case.answer) == Some(*first);
            let alone = |case: &Case| {
                let held = order.iter().filter(|check| holds(**check, &case.question));
                refused(case) && held.count() == 1
            };
            assert!(cases.iter().any(alone), "{op}: {first:?}");
            for later in &order[place + 1..] {
                // No salt is too short and too long.
                if (*first, *later) == (Refusal::SaltTooShort, Refusal::SaltTooLong) {
                    continue;
                }
                let shows = |case: &Case| refused(case) && holds(*later, &case.question);
                assert!(cases.iter().any(shows), "{op}: {first:?}, {later:?}");
            }
        }
    }
}

/// What every accepted change keeps: zeros where bytes were used, other bytes past both used parts as they were, the other
/// accounts in their order.
#[test]
fn changed_books_keep_what_they_should() {
    let (mut freed, mut kept) = (0, 0);
    for case in cases() {
        let (
            Some((before, number)),
            Answer::Changed {
                used_after,
                book_after,
            },
        ) = (book(&case.question), &case.answer)
        else {
            continue;
        };
        let (used, after) = (before.used as usize, *used_after as usize);
        let past = used.max(after);
        assert_eq!(before.bytes[past..], book_after[past..]);
        assert!(book_after[after..past].iter().all(|&byte| byte == 0));
        freed += past - after;
        // A program that puts zeros there would show.
        kept += before.bytes[past..]
            .iter()
            .filter(|&&byte| byte != 0)
            .count();
        let left = LentBook {
            bytes: book_after.clone(),
            used: *used_after,
        };
        let mut due = accounts(before).expect("the book is good");
        due.retain(|account| account.1 != number);
        let mut found = accounts(&left).expect("the book is good afterwards");
        if let Question::BookAdd { .. } = case.question {
            assert_eq!(found.pop().map(|last| last.1), Some(number));
        }
        assert_eq!(found, due, "case {}", case.number);
    }
    assert!(freed >= 500 && kept >= 500, "{freed} {kept}");
}

/// The small book that the damaged ones are made from: two accounts of 23 and 25 bytes.
fn small_book() -> Vec<u8> {
    let good = |case: &Case| match (&case.question, &case.answer) {
        (Question::BookFind { book, .. }, Answer::Found { place: 0 }) => {
            let is_own = book.used == 48 && book.bytes.len() == 48;
            is_own.then(|| book.bytes.clone())
        }
        _ => None,
    };
    cases().iter().find_map(good).expect("the file has it")
}

#[test]
fn every_byte_of_a_small_book_is_changed() {
    let small = small_book();
    let mut found = BTreeSet::new();
    for case in cases() {
        let Question::BookFind { book, .. } = &case.question else {
            continue;
        };
        if book.bytes.len() != small.len() || book.used != 48 {
            continue;
        }
        let pairs = small.iter().zip(&book.bytes).enumerate();
        let differing: Vec<usize> = pairs
            .filter(|(_, (x, y))| x != y)
            .map(|(at, _)| at)
            .collect();
        if let [at] = differing[..] {
            found.insert((at, book.bytes[at]));
        }
    }
    for (at, byte) in small.iter().enumerate() {
        assert!(found.contains(&(at, byte ^ 1)), "byte {at}");
        if at < 14 || (23..37).contains(&at) {
            let wide = [0, 255].into_iter().filter(|value| value != byte);
            wide.for_each(|value| assert!(found.contains(&(at, value)), "byte {at}"));
        }
    }
}

#[test]
fn a_small_book_is_cut_at_every_length() {
    let small = small_book();
    let used = |case: &Case| match &case.question {
        Question::BookFind { book, .. } if book.bytes == small => Some(book.used),
        _ => None,
    };
    let found: BTreeSet<u64> = cases().iter().filter_map(used).collect();
    assert!((0..=49).chain([u64::MAX]).all(|used| found.contains(&used)));
}

/// How a replaced account's length changes, and how many bytes more than are needed the book has.
#[test]
fn replaced_accounts_and_rooms() {
    let mut found = BTreeSet::new();
    for case in cases() {
        if let Question::BookAdd {
            book,
            number,
            values,
        } = &case.question
        {
            let new = 14 + (values.salt.count() + values.key.count()) as i64;
            let old = readable(book, *number).map(|(size, _)| new - size as i64);
            let spare = book.bytes.len() as i64 - needed(book, *number, values) as i64;
            let is_accepted = refused_with(&case.answer).is_none();
            found.insert((old.map(i64::signum), spare, is_accepted));
        }
    }
    let due = [
        // A new account, a longer one and one of the same length: exactly enough bytes, one too few, and more.
        (None, 0, true),
        (None, -1, false),
        (None, 1, true),
        (Some(1), 0, true),
        (Some(1), -1, false),
        (Some(1), 5, true),
        (Some(0), 0, true),
        (Some(0), 5, true),
    ];
    for one in due {
        assert!(found.contains(&one), "{one:?}");
    }
    // A shorter one always fits.
    assert!(found.iter().any(|one| one.0 == Some(-1)));
}

/// Right and wrong passwords, without visits and with some.
#[test]
fn passwords() {
    let mut answers = [0, 0];
    let mut reduced = BTreeSet::new();
    for case in cases() {
        if let (
            Question::BookCheck { .. },
            Answer::Checked {
                matches, counts, ..
            },
        ) = (&case.question, &case.answer)
        {
            answers[usize::from(*matches)] += 1;
            reduced.insert(counts.reduced);
        }
    }
    assert!(answers.iter().all(|&count| count >= 8), "{answers:?}");
    assert!(reduced.is_superset(&[3, 6].into()), "{reduced:?}");
}

/// Numbers, T, R, C and lengths of the accounts that are added.
#[test]
fn added_accounts() {
    let mut numbers = BTreeSet::new();
    let mut found = [(); 5].map(|()| BTreeSet::new());
    for case in cases() {
        if let (Question::BookAdd { number, values, .. }, Answer::Changed { .. }) =
            (&case.question, &case.answer)
        {
            numbers.insert(*number);
            let [salt, key] = [values.salt.count(), values.key.count()];
            let all = [values.t, values.r, values.c, salt, key];
            for (set, value) in found.iter_mut().zip(all) {
                set.insert(value);
            }
        }
    }
    assert!(numbers.is_superset(&[0, 7, 0x0403_0201, u32::MAX].into()));
    let due = [
        &[0, 1, 255][..],
        &[3, 0x0102, 16_384],
        &[1, 256],
        &[8, 64],
        &[1, 2, 255, 256, 257, 1024],
    ];
    for (found, due) in found.iter().zip(due) {
        assert!(due.iter().all(|value| found.contains(value)), "{due:?}");
    }
}
