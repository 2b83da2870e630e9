//! Books of accounts: the bytes of an account, the limits, histories against a list, damage, and what is left alone.

use lyra2::{
    derive, Account, Book, Mixer, Parameters, Refusal, Settings, ACCOUNT_HEAD, ACCOUNT_MAX,
    COLUMNS, KEY_LENGTHS, KEY_MAX, ROWS, SALT_LENGTHS, SALT_MAX, TIME_COSTS,
};
use lyra2_reference::vectors::random::Random;
use std::collections::BTreeSet;
use std::ops::RangeInclusive;

/// What the bytes behind a book hold before a call.
const HELD: u8 = 0xa5;
const SMALLEST: Parameters = Parameters {
    time: 0,
    rows: 3,
    columns: 1,
};

/// An account with its bytes, written by the test itself.
#[derive(Clone, Debug, PartialEq)]
struct Entry {
    number: u32,
    numbers: [usize; 3],
    salt: Vec<u8>,
    key: Vec<u8>,
}

impl Entry {
    fn new(number: u32, numbers: [usize; 3], salt: usize, key: usize) -> Entry {
        let bytes = |length: usize, first: u8| (0..length).map(|i| first ^ i as u8).collect();
        Entry {
            number,
            numbers,
            salt: bytes(salt, 0x51),
            key: bytes(key, number as u8 | 0x80),
        }
    }

    fn small(number: u32) -> Entry {
        Entry::new(number, [0, 3, 1], 8, 5)
    }

    fn account(&self) -> Account<'_> {
        let [time, rows, columns] = self.numbers;
        Account {
            number: self.number,
            parameters: Parameters {
                time,
                rows,
                columns,
            },
            salt: &self.salt,
            key: &self.key,
        }
    }

    fn bytes(&self) -> Vec<u8> {
        let [time, rows, columns] = self.numbers;
        let mut bytes = b"AC".to_vec();
        bytes.extend(self.number.to_le_bytes());
        bytes.push(time as u8);
        bytes.extend((rows as u16).to_le_bytes());
        bytes.extend((columns as u16).to_le_bytes());
        bytes.push(self.salt.len() as u8);
        bytes.extend((self.key.len() as u16).to_le_bytes());
        bytes.extend(&self.salt);
        bytes.extend(&self.key);
        bytes
    }

    fn of(account: Account) -> Entry {
        let Parameters {
            time,
            rows,
            columns,
        } = account.parameters;
        Entry {
            number: account.number,
            numbers: [time, rows, columns],
            salt: account.salt.to_vec(),
            key: account.key.to_vec(),
        }
    }
}

fn written(entries: &[Entry]) -> Vec<u8> {
    entries.iter().flat_map(Entry::bytes).collect()
}

/// A book of these accounts, with some bytes behind them.
fn book_of(entries: &[Entry], rest: usize) -> Book<Vec<u8>> {
    let mut bytes = written(entries);
    let used = bytes.len();
    bytes.resize(used + rest, HELD);
    Book::new(bytes, used)
}

/// The accounts of a part that is nothing but whole accounts within the limits, no number twice; read by the test itself.
fn read(mut part: &[u8]) -> Option<Vec<Entry>> {
    let (mut entries, mut numbers) = (Vec::new(), BTreeSet::new());
    while !part.is_empty() {
        let head: [u8; 14] = *part.first_chunk()?;
        let pair = |at: usize| usize::from(head[at]) + 256 * usize::from(head[at + 1]);
        let (salt, key) = (usize::from(head[11]), pair(12));
        let end = 14 + salt + key;
        let is_within = (3..=16_384).contains(&pair(7))
            && (1..=256).contains(&pair(9))
            && (8..=64).contains(&salt)
            && (1..=1024).contains(&key);
        if head[..2] != [65, 67] || !is_within || part.len() < end {
            return None;
        }
        let number = u32::from_le_bytes([head[2], head[3], head[4], head[5]]);
        entries.push(Entry {
            number,
            numbers: [usize::from(head[6]), pair(7), pair(9)],
            salt: part[14..14 + salt].to_vec(),
            key: part[14 + salt..end].to_vec(),
        });
        numbers.insert(number).then_some(())?;
        part = &part[end..];
    }
    Some(entries)
}

fn accounts<B: AsRef<[u8]>>(book: &Book<B>) -> Vec<Entry> {
    book.accounts()
        .map(|(_, account)| Entry::of(account))
        .collect()
}

#[test]
fn the_bytes_of_an_account() {
    let mut book = Book::new([HELD; 32], 0);
    book.add(Account {
        number: 0x0403_0201,
        parameters: Parameters {
            time: 5,
            rows: 0x0706,
            columns: 0x0100,
        },
        salt: b"saltsalt",
        key: b"key",
    })
    .expect("accepted");
    let due = b"AC\x01\x02\x03\x04\x05\x06\x07\x00\x01\x08\x03\x00saltsaltkey";
    assert_eq!((book.used(), book.used_bytes()), (25, &due[..]));
    assert_eq!(book.into_bytes()[25..], [HELD; 7]);
    assert_eq!((ACCOUNT_HEAD, ACCOUNT_MAX), (14, 14 + 64 + 1024));
    let largest = Entry::new(u32::MAX, [255, 16_384, 256], SALT_MAX, KEY_MAX);
    assert_eq!(largest.account().size(), ACCOUNT_MAX);
    let mut book = Book::new([0; ACCOUNT_MAX], 0);
    book.add(largest.account()).expect("accepted");
    assert_eq!(book.used_bytes(), largest.bytes());
}

/// The numbers at the limits are added and read; those beside them are refused with their own number, and make a book
/// that is not in order.
fn limits_hold(
    limits: RangeInclusive<usize>,
    [below, above]: [Refusal; 2],
    written_up_to: usize,
    entry: impl Fn(usize) -> Entry,
) {
    let (low, high) = (*limits.start(), *limits.end());
    let refused = |number| if number < low { below } else { above };
    for number in [low.wrapping_sub(1), low, high, high + 1] {
        if number > written_up_to {
            continue;
        }
        let entry = entry(number);
        let mut book = Book::new(vec![HELD; ACCOUNT_MAX + 1], 0);
        let added = book.add(entry.account());
        let held = Book::new(entry.bytes(), entry.account().size());
        if limits.contains(&number) {
            assert_eq!((added, book.used_bytes()), (Ok(()), &entry.bytes()[..]));
            assert_eq!(accounts(&held), [entry]);
            assert_eq!(held.require_good(), Ok(()));
        } else {
            assert_eq!(added, Err(refused(number)), "{number}");
            assert_eq!((book.used(), book.into_bytes()), (0, vec![HELD; 1103]));
            let [used, found] = [held.used(), accounts(&held).len()];
            assert_eq!(held.require_good(), Err(Refusal::BookForm), "{number}");
            assert_eq!((used, found), (entry.bytes().len(), 0), "{number}");
        }
    }
}

#[test]
fn the_named_limits_are_the_librarys() {
    let any = u16::MAX.into();
    limits_hold(KEY_LENGTHS, [Refusal::KeyLength; 2], any, |n| {
        Entry::new(1, [1, 3, 1], 8, n)
    });
    let salts = [Refusal::SaltTooShort, Refusal::SaltTooLong];
    limits_hold(SALT_LENGTHS, salts, any, |n| Entry::new(1, [1, 3, 1], n, 5));
    limits_hold(ROWS, [Refusal::Rows; 2], any, |n| {
        Entry::new(1, [1, n, 1], 8, 5)
    });
    limits_hold(COLUMNS, [Refusal::Columns; 2], any, |n| {
        Entry::new(1, [1, 3, n], 8, 5)
    });
    // A byte holds no other T.
    limits_hold(TIME_COSTS, [Refusal::TimeCost; 2], 255, |n| {
        Entry::new(1, [n, 3, 1], 8, 5)
    });
    for time in [256, usize::MAX] {
        let refused = Book::new([0; 100], 0).add(Entry::new(1, [time, 3, 1], 8, 5).account());
        assert_eq!(refused, Err(Refusal::TimeCost), "{time}");
    }
    for rows in [1 << 16 | 3, 1 << 40, usize::MAX] {
        let refused = Book::new([0; 100], 0).add(Entry::new(1, [0, rows, 1], 8, 5).account());
        assert_eq!(refused, Err(Refusal::Rows), "{rows}");
    }
}

/// With everything wrong at once the first check refuses; put right one after another, each of them does.
#[test]
fn the_first_refusal_of_an_account_is_told() {
    let damaged = [65];
    for (numbers, salt, key, used, refusal) in [
        ([256, 2, 0], 7, 0, 1, Refusal::KeyLength),
        ([256, 2, 0], 7, 1, 1, Refusal::SaltTooShort),
        ([256, 2, 0], 65, 1, 1, Refusal::SaltTooLong),
        ([256, 2, 0], 8, 1, 1, Refusal::TimeCost),
        ([0, 2, 0], 8, 1, 1, Refusal::Rows),
        ([0, 3, 0], 8, 1, 1, Refusal::Columns),
        ([0, 3, 1], 8, 1, 1, Refusal::BookForm),
        ([0, 3, 1], 8, 1, 0, Refusal::BookFull),
    ] {
        let mut book = Book::new(damaged, used);
        let refused = book.add(Entry::new(1, numbers, salt, key).account());
        assert_eq!(refused, Err(refusal));
        assert_eq!((book.used(), book.into_bytes()), (used, damaged));
    }
}

#[test]
fn the_first_refusal_of_a_check_is_told() {
    let (long, damaged) = ([0; 1025], Book::new([65], 1));
    let good = book_of(&[Entry::small(1)], 0);
    let refused = damaged.check(&long, 2, &mut []);
    assert_eq!(refused, Err(Refusal::PasswordLength));
    let refused = damaged.check(&long[1..], 2, &mut []);
    assert_eq!(refused, Err(Refusal::BookForm));
    assert_eq!(good.check(b"", 2, &mut []), Err(Refusal::NoAccount));
    let mut short = [7; 35];
    let refused = good.check(b"", 1, &mut short);
    assert_eq!((refused, short), (Err(Refusal::MatrixWords), [7; 35]));
}

#[test]
fn what_is_not_a_book_is_not_searched_or_changed() {
    let damaged = [65];
    for used in [1, 2, usize::MAX] {
        let mut book = Book::new(damaged, used);
        assert_eq!(book.find(1), Err(Refusal::BookForm));
        assert_eq!(book.remove(1), Err(Refusal::BookForm));
        assert_eq!((book.used(), book.into_bytes()), (used, damaged));
    }
}

/// The used length may be any; where it passes the bytes nothing is read behind them.
#[test]
fn a_used_length_that_passes_the_bytes() {
    let entries = [Entry::small(1), Entry::small(2)];
    let bytes = written(&entries);
    for used in [bytes.len() + 1, usize::MAX - 1, usize::MAX] {
        let book = Book::new(bytes.clone(), used);
        assert_eq!(book.find(1), Err(Refusal::BookForm), "{used}");
        assert_eq!(book.used_bytes(), bytes);
        assert_eq!(accounts(&book), entries);
        assert!(book.account(used).is_none() && book.account(usize::MAX).is_none());
    }
}

/// The room is that of the accounts in the end; the old account's counts for the new one.
#[test]
fn room_to_the_byte() {
    let (one, two) = (Entry::small(1), Entry::small(2));
    for (size, key) in [(27, 5), (28, 6), (26, 4)] {
        let new = Entry::new(2, [1, 4, 2], 8, key);
        assert_eq!(new.bytes().len(), size);
        for room in 54..=55_usize {
            let mut book = book_of(&[one.clone(), two.clone()], room - 54);
            let added = book.add(new.account());
            let fits = 27 + size <= room;
            assert_eq!(added, if fits { Ok(()) } else { Err(Refusal::BookFull) });
            let kept = if fits { &new } else { &two };
            let due = written(&[one.clone(), kept.clone()]);
            assert_eq!(book.used_bytes(), due);
            // A byte that is left becomes zero, one that was not used stays.
            let rest = &book.into_bytes()[due.len()..];
            let freed = 54_usize.saturating_sub(due.len());
            assert!(rest[..freed].iter().all(|&byte| byte == 0), "{rest:?}");
            assert!(rest[freed..].iter().all(|&byte| byte == HELD), "{rest:?}");
        }
    }
}

/// Adds, replaces and removes at random, and holds the bytes and every answer against a list of accounts.
#[test]
fn a_history_against_a_list() {
    let mut random = Random::new(110);
    let mut within = |low: u64, high: u64| random.between(low, high) as usize;
    const ROOM: usize = 2000;
    let mut book = Book::new(vec![0; ROOM], 0);
    let mut list: Vec<Entry> = Vec::new();
    let mut counts = [0; 4];
    for _ in 0..3000 {
        let number = [0, 1, 2, 3, 4, 5, 6, 256, 1 << 24, u32::MAX][within(0, 9)];
        let place = list.iter().position(|entry| entry.number == number);
        if within(0, 2) == 0 {
            let due = place.ok_or(Refusal::NoAccount).map(|place| {
                list.remove(place);
            });
            assert_eq!(book.remove(number), due);
            counts[usize::from(due.is_err())] += 1;
        } else {
            let numbers = [within(0, 255), within(3, 16_384), within(1, 256)];
            let entry = Entry::new(number, numbers, within(8, 64), within(1, 400));
            let mut next = list.clone();
            place.map(|place| next.remove(place));
            next.push(entry.clone());
            let fits = written(&next).len() <= ROOM;
            let due = if fits { Ok(()) } else { Err(Refusal::BookFull) };
            assert_eq!(book.add(entry.account()), due);
            if fits {
                list = next;
            }
            counts[2 + usize::from(due.is_err())] += 1;
        }
        same(&book, &list);
    }
    assert!(counts.iter().all(|&count| count > 100), "{counts:?}");
    // What was used once and is not any more is zero.
    let used = book.used();
    assert!(book.into_bytes()[used..].iter().all(|&byte| byte == 0));
}

/// Requires that a book has the accounts of a list, each found where it stands.
#[track_caller]
fn same(book: &Book<Vec<u8>>, list: &[Entry]) {
    let due = written(list);
    assert_eq!(book.used_bytes(), due);
    assert_eq!(accounts(book), list);
    let mut place = 0;
    for (entry, (found, account)) in list.iter().zip(book.accounts()) {
        assert_eq!(book.find(entry.number), Ok(place));
        assert_eq!((found, account.number), (place, entry.number));
        place += entry.bytes().len();
    }
    assert_eq!(place, book.used());
    assert_eq!(book.find(77), Err(Refusal::NoAccount));
}

/// Of a small book every byte becomes every other one, and it is cut at every length.
#[test]
fn damage_is_told() {
    let entries = [
        Entry::small(1),
        Entry::new(0x0201, [255, 0x0102, 256], 9, 3),
    ];
    let good = written(&entries);
    let (mut accepted, mut refused) = (0, 0);
    let mut look = |bytes: Vec<u8>| {
        let due = read(&bytes);
        let used = bytes.len();
        let book = Book::new(bytes, used);
        let found = book.require_good();
        assert_eq!(found.is_ok(), due.is_some(), "{:?}", book.used_bytes());
        match due {
            Some(due) => {
                assert_eq!(accounts(&book), due);
                accepted += 1;
            }
            None => {
                assert_eq!(book.find(1), Err(Refusal::BookForm));
                refused += 1;
            }
        }
    };
    for place in 0..good.len() {
        for byte in 0..=255 {
            let mut bytes = good.clone();
            bytes[place] = byte;
            look(bytes);
        }
        look(good[..place].to_vec());
    }
    look(written(&[entries[0].clone(), entries[0].clone()]));
    assert!(accepted > 5000 && refused > 3000, "{accepted} {refused}");
}

/// In a book that is not in order the steps end at the damage, and a number that stands there twice is met twice.
#[test]
fn steps_through_a_damaged_book() {
    let entries = [1, 2, 3].map(Entry::small);
    let mut book = book_of(&entries, 0).into_bytes();
    book[27] = b'a';
    let damaged = Book::new(book, 81);
    assert_eq!(accounts(&damaged), entries[..1]);
    assert!(damaged.account(27).is_none() && damaged.account(54).is_some());
    let twice = book_of(&[entries[0].clone(), entries[0].clone()], 0);
    assert_eq!(accounts(&twice).len(), 2);
    assert_eq!(twice.require_good(), Err(Refusal::BookForm));
}

/// A book does not say what its keys were made with, so a check goes by the usual settings.
#[test]
fn a_check_goes_with_the_usual_settings() {
    let usual = Settings::from(SMALLEST);
    let rounds = Settings { rounds: 2, ..usual };
    let mixer = Settings {
        mixer: Mixer::BlaMka,
        ..usual
    };
    let more_time = Parameters {
        time: 2,
        ..SMALLEST
    };
    for (settings, due) in [
        (usual, true),
        (more_time.into(), true),
        (rounds, false),
        (mixer, false),
    ] {
        let (mut key, mut matrix, salt) = ([0; 32], [7; 40], b"saltsalt");
        derive(b"pass", salt, settings, &mut key, &mut matrix).expect("accepted");
        let mut book = book_of(&[Entry::small(1)], 100);
        let account = Account {
            number: 2,
            parameters: settings.parameters,
            salt,
            key: &key,
        };
        book.add(account).expect("accepted");
        let before = book.used_bytes().to_vec();
        matrix = [7; 40];
        let checked = book.check(b"pass", 2, &mut matrix).expect("accepted");
        let direct = lyra2::check(b"pass", salt, settings.parameters, &key, &mut [0; 36]);
        assert_eq!((Ok(checked), checked.same), (direct, due), "{settings:?}");
        assert_eq!((&matrix[..36], &matrix[36..]), (&[0; 36][..], &[7; 4][..]));
        assert_eq!(book.used_bytes(), before);
        let wrong = book.check(b"word", 2, &mut matrix).expect("accepted");
        assert!(!wrong.same);
    }
}

/// Whoever lends the bytes, the answers are the same.
#[test]
fn bytes_of_every_kind() {
    let entry = Entry::small(3);
    let mut array = [0; 30];
    let mut book = Book::new(&mut array, 0);
    book.add(entry.account()).expect("accepted");
    let used = book.used();
    assert_eq!(book.find(3), Ok(0));
    assert_eq!(Book::new(&array, used).find(3), Ok(0));
    let mut bytes = array.to_vec();
    assert_eq!(Book::new(&bytes[..], used).find(3), Ok(0));
    let mut book = Book::new(&mut bytes[..], used);
    book.remove(3).expect("it is there");
    assert_eq!((book.used(), bytes), (0, vec![0; 30]));
}

#[test]
fn what_is_printed_for_a_look_has_no_secret() {
    let entry = Entry {
        salt: vec![0xf7; 8],
        key: vec![0xf7; 4],
        ..Entry::small(3)
    };
    let book = book_of(&[entry], 0);
    let (_, account) = book.accounts().next().expect("an account");
    let shown = format!("{account:?} {book:?}");
    assert!(shown.contains("number: 3") && shown.contains("rows: 3"));
    assert!(shown.contains("key_length: 4") && shown.contains("salt_length: 8"));
    assert!(shown.contains("used: 26"), "{shown}");
    assert!(!shown.contains("247") && !shown.contains("f7"), "{shown}");
}
