//! The questions of the vectors file about damaged books, and about the order in which calls on a book are refused.

use super::books::{
    account, accounts, add, at_place, book_of, book_with_key, check, find, remove, ABSENT, TEXT,
};
use super::case::{LentBook, Question};
use crate::account::Account;
use crate::book;

/// All groups, one after the other.
pub fn questions() -> Vec<Question> {
    [
        every_byte(),
        cut(),
        used_lengths(),
        limits_in_the_book(),
        twice(),
        marks(),
        added_in_order(),
        looked_up_in_order(),
        checked_in_order(),
    ]
    .concat()
}

/// The first two accounts of the small books.
fn two() -> LentBook {
    book_of(&accounts()[..2], 0)
}

/// A book with another byte at a place.
fn changed(mut book: LentBook, place: usize, change: impl Fn(u8) -> u8) -> LentBook {
    book.bytes[place] = change(book.bytes[place]);
    book
}

/// Every byte of a book changed in turn: the lowest bit, and in the heads also the whole byte. Those of salts and keys may
/// be any, and some of the heads too.
fn every_byte() -> Vec<Question> {
    let changes: [fn(u8) -> u8; 3] = [|byte| byte ^ 1, |_| 0, |_| 255];
    let [_, second, _] = accounts();
    let mut questions = Vec::new();
    for place in 0..two().bytes.len() {
        let in_head = place < 14 || (23..37).contains(&place);
        for change in changes.iter().take(if in_head { 3 } else { 1 }) {
            let book = changed(two(), place, change);
            if book != two() {
                questions.push(find(&book, second.number));
            }
        }
        if in_head {
            let book = changed(two(), place, changes[0]);
            questions.push(at_place(&book.bytes, if place < 23 { 0 } else { 23 }));
            if place < 23 {
                questions.push(remove(&book, second.number));
            } else {
                questions.push(add(&book, &account(second.number, [1, 3, 1], [8, 1])));
            }
        }
    }
    questions
}

/// The used part cut at every length, where the rest of the accounts still stands behind it.
fn cut() -> Vec<Question> {
    let [first, second, _] = accounts();
    let mut questions = Vec::new();
    for used in 0..=48 {
        let book = LentBook { used, ..two() };
        questions.push(find(&book, first.number));
        if [0, 1, 22, 23, 24, 47].contains(&used) {
            questions.push(remove(&book, second.number));
            questions.push(add(&book, &account(second.number, [1, 3, 1], [8, 1])));
        }
    }
    questions
}

/// Used lengths that pass the slice; some of them would not if cut to fewer bits.
fn used_lengths() -> Vec<Question> {
    let [first, ..] = accounts();
    let mut questions = Vec::new();
    for used in [49, 1 << 32 | 48, u64::MAX] {
        let book = LentBook { used, ..two() };
        questions.push(find(&book, first.number));
        questions.push(remove(&book, first.number));
        questions.push(add(&book, &first));
        questions.push(check(b"", &book, first.number, 36));
    }
    for used in [50, 1 << 8 | 48, 1 << 16 | 48, 1 << 63 | 48] {
        questions.push(find(&LentBook { used, ..two() }, first.number));
    }
    // The slice ends within an account, and the used length says that it does not.
    for len in [0, 1, 22, 23, 24, 47] {
        let bytes = two().bytes[..len].to_vec();
        questions.push(find(&LentBook { bytes, used: 48 }, first.number));
    }
    let bytes = Vec::new();
    questions.push(find(&LentBook { bytes, used: 1 }, first.number));
    questions
}

/// The bytes of an account with values that may be outside of the limits; all lengths agree with what stands there.
fn bytes_of([r, c]: [u16; 2], [salt, key]: [usize; 2]) -> Vec<u8> {
    let mut bytes = account(1, [1, 3, 1], [salt, key]).encode();
    bytes[7..9].copy_from_slice(&r.to_le_bytes());
    bytes[9..11].copy_from_slice(&c.to_le_bytes());
    bytes
}

/// Accounts in the book at their limits and beyond them, as the first and as the last of two.
fn limits_in_the_book() -> Vec<Question> {
    let mut heads = Vec::new();
    for r in [0, 2, 3, 16_384, 16_385, u16::MAX] {
        heads.push(([r, 1], [8, 1]));
    }
    for c in [0, 1, 256, 257, u16::MAX] {
        heads.push(([3, c], [8, 1]));
    }
    for salt in [0, 7, 8, 64, 65, 255] {
        heads.push(([3, 1], [salt, 1]));
    }
    for key in [0, 1, 256, 1024, 1025] {
        heads.push(([3, 1], [8, key]));
    }
    let [first, ..] = accounts();
    let mut questions = Vec::new();
    for (number, (costs, lengths)) in heads.into_iter().enumerate() {
        let own = bytes_of(costs, lengths);
        let parts = if number % 2 == 0 {
            [own.clone(), first.encode()]
        } else {
            [first.encode(), own.clone()]
        };
        let bytes = parts.concat();
        let used = bytes.len() as u64;
        questions.push(find(&LentBook { bytes, used }, 1));
        questions.push(at_place(&own, 0));
    }
    questions
}

/// So many accounts of 23 bytes, whose numbers neither rise nor fall.
pub(super) fn many(count: usize) -> Vec<Account<'static>> {
    let number = |place: usize| (place as u32).wrapping_mul(0x9e37_79b9);
    let own = |place| account(number(place), [1, 3, 1], [8, 1]);
    (0..count).map(own).collect()
}

/// A number that two accounts have: next to each other, at both ends, and among many.
fn twice() -> Vec<Question> {
    let three = accounts();
    let mut questions = Vec::new();
    for (from, to) in [(0, 1), (0, 2), (1, 2), (1, 0), (2, 0), (2, 1)] {
        let mut accounts = three;
        accounts[to].number = accounts[from].number;
        let book = book_of(&accounts, 30);
        questions.push(find(&book, three[to].number));
        questions.push(remove(&book, three[from].number));
        questions.push(add(&book, &account(three[from].number, [1, 3, 1], [8, 1])));
    }
    let same = [three[0], three[0]];
    questions.push(find(&book_of(&same, 0), three[0].number));
    for (count, from, to) in [
        (33, 0, 32),
        (33, 31, 32),
        (33, 16, 17),
        (65, 0, 64),
        (65, 63, 64),
        (65, 1, 0),
    ] {
        let mut accounts = many(count);
        accounts[to].number = accounts[from].number;
        let book = book_of(&accounts, 0);
        questions.push(find(&book, accounts[count / 2].number));
    }
    questions
}

/// Marks that are nearly right, for the first account and for the second.
fn marks() -> Vec<Question> {
    let [first, second, _] = accounts();
    let mut questions = Vec::new();
    for mark in [b"ac", b"CA", b"AA", b"CC", b"\0\0", b"A\0", b"\0C"] {
        for place in [0, 23] {
            let mut book = two();
            book.bytes[place..place + 2].copy_from_slice(mark);
            questions.push(find(&book, first.number));
        }
    }
    // A byte or a whole mark too many, before, between and after the accounts.
    for more in [&b"\0"[..], b"A", b"AC"] {
        for place in [0, 23, 48] {
            let bytes = [&two().bytes[..place], more, &two().bytes[place..]].concat();
            let used = bytes.len() as u64;
            questions.push(find(&LentBook { bytes, used }, second.number));
        }
    }
    questions
}

/// A call to add an account, by what its checks look at.
#[derive(Clone)]
struct Adding {
    new: Account<'static>,
    book: LentBook,
}

/// What a check of adding is about.
#[derive(Clone, Copy)]
enum Condition {
    Key,
    Salt,
    TimeCost,
    Rows,
    Columns,
    Book,
    Room,
}

/// The conditions in the order of their checks.
const CONDITIONS: [Condition; 7] = [
    Condition::Key,
    Condition::Salt,
    Condition::TimeCost,
    Condition::Rows,
    Condition::Columns,
    Condition::Book,
    Condition::Room,
];

impl Adding {
    /// Makes a condition hold, in one of two ways: from below or from above, by a mark or by the used length, and with a
    /// book that is a byte short or has none to spare.
    fn make_hold(&mut self, condition: Condition, from_above: bool) {
        let pick = |below: u64, above: u64| if from_above { above } else { below };
        match condition {
            Condition::Key => self.new.key = &TEXT[..pick(0, 1025) as usize],
            Condition::Salt => self.new.salt = &TEXT[..pick(7, 65) as usize],
            Condition::TimeCost => self.new.t = pick(256, u64::MAX),
            Condition::Rows => self.new.r = pick(2, 16_385),
            Condition::Columns => self.new.c = pick(0, 257),
            Condition::Book if from_above => self.book.used += 31,
            Condition::Book => self.book.bytes[23] = b'B',
            Condition::Room => {
                let needed = self.needed();
                self.book.bytes.truncate(pick(48, needed - 1) as usize);
            }
        }
    }

    /// The length of the book after the call.
    fn needed(&self) -> u64 {
        let two = &accounts()[..2];
        let others = two.iter().filter(|old| old.number != self.new.number);
        let sizes = others.map(|account| account.values().size);
        sizes.sum::<u64>() + self.new.values().size
    }
}

/// Each condition alone and with each later one, for a new account; each alone and with the next one, for an account that
/// gives way to a longer one, which a refusal has to leave in its place.
fn added_in_order() -> Vec<Question> {
    let mut questions = Vec::new();
    for (number, most_later) in [(ABSENT, CONDITIONS.len()), (accounts()[0].number, 1)] {
        let mut fitting = Adding {
            new: account(number, [1, 3, 1], [40, 2]),
            book: book_of(&accounts()[..2], 0),
        };
        let spare = fitting.needed() - fitting.book.used;
        fitting.book = book_of(&accounts()[..2], spare as usize);
        questions.push(add(&fitting.book, &fitting.new));
        for (place, first) in CONDITIONS.iter().enumerate() {
            for from_above in [false, true] {
                let mut alone = fitting.clone();
                alone.make_hold(*first, from_above);
                questions.push(add(&alone.book, &alone.new));
                for later in CONDITIONS[place + 1..].iter().take(most_later) {
                    let mut both = alone.clone();
                    both.make_hold(*later, from_above);
                    questions.push(add(&both.book, &both.new));
                }
            }
        }
    }
    questions
}

/// Finding and removing in a damaged book, a number that is there and one that is not.
fn looked_up_in_order() -> Vec<Question> {
    let [first, ..] = accounts();
    let mut questions = Vec::new();
    let damaged = [
        changed(two(), 23, |_| b'B'),
        LentBook { used: 47, ..two() },
        LentBook { used: 49, ..two() },
        book_of(&[first, first], 0),
    ];
    for book in damaged.iter().chain([&two()]) {
        for number in [first.number, ABSENT] {
            questions.extend([find(book, number), remove(book, number)]);
        }
    }
    questions
}

/// Each condition of checking alone, and every set of them.
fn checked_in_order() -> Vec<Question> {
    let good = book_with_key(b"password", [1, 3, 1], [8, 8]);
    let mut questions = Vec::new();
    for set in 0..16 {
        let holds = |bit: u32| set & 1 << bit != 0;
        let password = if holds(0) { &TEXT[..1025] } else { b"password" };
        let number = if holds(2) { ABSENT } else { 5 };
        let words = if holds(3) { 35 } else { 36 };
        let mut book = good.clone();
        // In one of three ways.
        match set % 3 {
            _ if !holds(1) => (),
            0 => book.used -= 1,
            1 => book.bytes[1] = b'c',
            _ => book.used = u64::MAX,
        }
        questions.push(check(password, &book, number, words));
    }
    // The account asks for more than the least: what is left over for it is not enough.
    for words in [12 * 16_384 - 1, 36] {
        questions.push(check(b"password", &good, 4, words));
    }
    // A number twice, where the first of the two has the key of the password.
    let mut accounts = book::decode(&good.bytes[..good.used as usize]).unwrap_or_default();
    if let Some(last) = accounts.last_mut() {
        last.number = 5;
    }
    questions.push(check(b"password", &book_of(&accounts, 0), 5, 36));
    questions
}
