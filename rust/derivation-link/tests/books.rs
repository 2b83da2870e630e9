//! Books of accounts: the proved library against the second program, in lent bytes between guards.

use derivation_link::books::{compare_history, Book};
use derivation_link::Proved;
use lyra2_reference::book::encode;
use lyra2_reference::vectors::random::Random;
use lyra2_reference::vectors::Subject;
use lyra2_reference::{derive, Account, AccountValues, Refusal};
use std::collections::BTreeSet;

const SALT: &[u8] = b"saltsaltACACACACsaltsaltsaltsaltsaltsaltsaltsaltsaltsaltsaltsaltX";
static ZEROS: [u8; 1025] = [0; 1025];

fn account(number: u32, [t, r, c]: [u64; 3], [salt, key]: [usize; 2]) -> Account<'static> {
    let (salt, key) = (&SALT[..salt], &ZEROS[..key]);
    Account {
        number,
        t,
        r,
        c,
        salt,
        key,
    }
}

/// Two small accounts, 48 bytes in all.
fn small() -> [Account<'static>; 2] {
    [
        account(7, [0, 3, 1], [8, 1]),
        account(0x0403_0201, [1, 0x0102, 256], [9, 2]),
    ]
}

/// A book of some accounts and so many random bytes more.
fn book(accounts: &[Account], spare: u64, random: &mut Random) -> Book {
    let mut bytes = encode(accounts);
    let used = bytes.len() as u64;
    bytes.extend(random.bytes(spare));
    Book { bytes, used }
}

/// Takes the answer of both programs out of a comparison, which must not fail.
#[track_caller]
fn agreed<A>(compared: Result<A, String>) -> A {
    compared.unwrap_or_else(|what| panic!("{what}"))
}

/// Finds, removes, adds and reads with both programs, each in a copy of the book, and returns the refusal of finding.
fn ask_all(book: &Book, number: u32, random: &mut Random) -> Option<Refusal> {
    let found = agreed(book.find(&Proved, number, random));
    let _ = agreed(book.clone().remove(&Proved, number, random));
    let new = account(number, [1, 3, 1], [8, 2]);
    let _ = agreed(book.clone().add(&Proved, &new, random));
    for place in [0, 23, found.unwrap_or(48)] {
        agreed(book.account(&Proved, place, random));
    }
    found.err()
}

#[test]
fn histories() {
    let mut random = Random::new(0x110);
    let mut met = BTreeSet::new();
    for _ in 0..400 {
        let steps = random.between(1, 100);
        let answers = agreed(compare_history(&Proved, steps, &mut random));
        met.extend(answers.iter().map(|answer| match answer {
            Ok(()) => 0,
            Err(refusal) => refusal.number(),
        }));
    }
    assert_eq!(met, [0, 1, 3, 4, 5, 6, 10, 18, 19].into());
}

/// Every byte of a small book changed to every other value. Where it is harmless, the book is still a good one.
#[test]
fn every_byte_of_a_book_changed() {
    let mut random = Random::new(0x111);
    let start = book(&small(), 26, &mut random);
    let (mut damaged, mut harmless) = (0, 0);
    for place in 0..48 {
        for value in 0..=255 {
            let mut other = start.clone();
            other.bytes[place] = value;
            match ask_all(&other, small()[1].number, &mut random) {
                Some(Refusal::DamagedBook) => damaged += 1,
                _ => harmless += 1,
            }
        }
    }
    // The bytes of salts, keys, numbers and T are 30, and may be any; of the others few values are harmless.
    assert!(harmless > 30 * 256, "{harmless}");
    assert!(damaged > 14 * 256, "{damaged}");
}

/// The used part cut at every length, and the slice as well.
#[test]
fn books_cut_at_every_length() {
    let mut random = Random::new(0x112);
    let start = book(&small(), 26, &mut random);
    for used in (0..=80).chain([1 << 32 | 48, 1 << 63 | 48, u64::MAX]) {
        let cut = Book {
            used,
            ..start.clone()
        };
        ask_all(&cut, 7, &mut random);
        ask_all(&cut, 99, &mut random);
        for len in [0, 14, 22, 23, 24, 47, 48, 49] {
            let mut short = cut.clone();
            short.bytes.truncate(len);
            ask_all(&short, 7, &mut random);
        }
    }
}

/// Every room about the length that a new account needs, for accounts that take another one's place and for others.
#[test]
fn every_room() {
    let mut random = Random::new(0x113);
    for number in [7, 0x0403_0201, 99] {
        for lengths in [[8, 1], [9, 2], [8, 3], [64, 30], [8, 1024]] {
            let new = account(number, [255, 16_384, 256], lengths);
            let needed = 48 + 14 + (lengths[0] + lengths[1]) as u64;
            let rooms =
                (0..=needed - 48 + 2).filter(|spare| needed < 200 || *spare + 60 > needed - 48);
            for spare in rooms {
                let mut book = book(&small(), spare, &mut random);
                let _ = agreed(book.add(&Proved, &new, &mut random));
            }
        }
    }
}

/// Each value of a new account at its limits, beyond them, and where it would pass if cut to fewer bits.
#[test]
fn limits_of_a_new_account() {
    let mut random = Random::new(0x114);
    let mut met = BTreeSet::new();
    let mut add = |new: Account| {
        let mut book = book(&small(), 1200, &mut random);
        let answer = agreed(book.add(&Proved, &new, &mut random));
        met.insert(answer.err().map_or(0, Refusal::number));
    };
    let wide = [8, 16, 31, 32, 40, 63].map(|bits| 1 << bits);
    let values = |low: u64, high: u64| {
        let near = [
            low.saturating_sub(1),
            low,
            low + 1,
            high - 1,
            high,
            high + 1,
        ];
        let cut = wide.iter().flat_map(move |power| [*power, power | low]);
        near.into_iter().chain(cut).chain([0, u64::MAX])
    };
    values(0, 255).for_each(|t| add(account(9, [t, 3, 1], [8, 1])));
    values(3, 16_384).for_each(|r| add(account(9, [1, r, 1], [8, 1])));
    values(1, 256).for_each(|c| add(account(9, [1, 3, c], [8, 1])));
    for len in 0..=65 {
        add(account(9, [1, 3, 1], [len, 1]));
    }
    for len in (0..=300).chain(1000..=1025) {
        add(account(9, [1, 3, 1], [8, len]));
    }
    assert_eq!(met, [0, 1, 3, 4, 5, 6, 10].into());
}

/// So many small accounts, whose numbers are all different and in no order.
fn many(count: usize, random: &mut Random) -> Vec<Account<'static>> {
    // Odd factors keep numbers apart.
    let (factor, start) = (random.word() as u32 | 1, random.word() as u32);
    let number = |place: usize| (place as u32).wrapping_mul(factor).wrapping_add(start);
    let own = |place| account(number(place), [1, 3, 1], [8, 1]);
    (0..count).map(own).collect()
}

/// A number that two accounts have, wherever the two stand.
#[test]
fn every_pair_of_accounts_with_one_number() {
    let mut random = Random::new(0x115);
    for count in 2..=34 {
        let accounts = many(count, &mut random);
        for (one, other) in (0..count).flat_map(|one| (0..one).map(move |other| (one, other))) {
            let mut twice = accounts.clone();
            twice[one].number = twice[other].number;
            let book = book(&twice, 3, &mut random);
            let asked = accounts[one].number;
            let found = agreed(book.find(&Proved, asked, &mut random));
            assert_eq!(found, Err(Refusal::DamagedBook), "{count}: {one}, {other}");
        }
    }
    for count in [
        63, 64, 65, 127, 128, 129, 255, 256, 257, 511, 512, 513, 1025,
    ] {
        let accounts = many(count, &mut random);
        let mut pairs = vec![
            (0, count - 1),
            (count - 2, count - 1),
            (0, 1),
            (1, count / 2),
        ];
        for _ in 0..20 {
            let place = |random: &mut Random| random.between(0, count as u64 - 1) as usize;
            pairs.push((place(&mut random), place(&mut random)));
        }
        for (one, other) in pairs {
            let mut twice = accounts.clone();
            twice[one].number = twice[other].number;
            let mut book = book(&twice, 3, &mut random);
            let asked = accounts[other].number;
            let found = agreed(book.find(&Proved, asked, &mut random));
            let removed = agreed(book.remove(&Proved, asked, &mut random));
            assert_eq!(found.is_err(), one != other);
            assert_eq!(removed.err(), found.err());
        }
    }
}

/// Finding, removing and replacing in a book of ten thousand accounts.
#[test]
fn ten_thousand_accounts() {
    let mut random = Random::new(0x116);
    let accounts = many(10_000, &mut random);
    let mut large = book(&accounts, 40, &mut random);
    for place in [0, 5_000, 9_999] {
        let found = agreed(large.find(&Proved, accounts[place].number, &mut random));
        assert_eq!(found, Ok(23 * place as u64));
    }
    let absent = accounts[9_999].number.wrapping_add(1);
    let missing = agreed(large.find(&Proved, absent, &mut random));
    assert_eq!(missing, Err(Refusal::NoAccount));
    let removed = agreed(large.remove(&Proved, accounts[5_000].number, &mut random));
    assert_eq!(removed, Ok(23 * 9_999));
    let first = account(accounts[0].number, [2, 4, 2], [10, 5]);
    let added = agreed(large.add(&Proved, &first, &mut random));
    assert_eq!(added, Ok(23 * 9_998 + 29));
    let numbers = agreed(large.numbers(&Proved, &mut random));
    assert_eq!(numbers.len(), 9_999);
    assert_eq!(
        (numbers[0], numbers[9_998]),
        (accounts[1].number, first.number)
    );
}

/// A number that two of ten thousand accounts have, wherever these stand.
#[test]
fn ten_thousand_accounts_and_a_number_twice() {
    let mut random = Random::new(0x11a);
    let accounts = many(10_000, &mut random);
    let new = account(accounts[0].number, [2, 4, 2], [10, 5]);
    for (one, other) in [
        (0, 9_999),
        (0, 1),
        (9_998, 9_999),
        (5_000, 5_001),
        (3, 7_000),
    ] {
        let mut twice = accounts.clone();
        twice[one].number = twice[other].number;
        let mut damaged = book(&twice, 40, &mut random);
        let refused = Err(Refusal::DamagedBook);
        let number = accounts[2].number;
        assert_eq!(agreed(damaged.find(&Proved, number, &mut random)), refused);
        assert_eq!(
            agreed(damaged.remove(&Proved, number, &mut random)),
            refused
        );
        assert_eq!(agreed(damaged.add(&Proved, &new, &mut random)), refused);
    }
}

/// The account with the key of a password.
fn with_key<'a>(account: &Account<'a>, password: &[u8], key: &'a mut [u8]) -> Account<'a> {
    let mut matrix = vec![0; account.parameters().matrix_words() as usize];
    let derived = derive(&account.inputs(password), key, &mut matrix);
    derived.expect("the account is within the limits");
    Account { key, ..*account }
}

/// The password, others, and other stored keys; with matrices that fit, that are longer, and that are too short.
#[test]
fn passwords() {
    let mut random = Random::new(0x117);
    let mut answers = [0, 0];
    for _ in 0..300 {
        let costs = [
            random.between(0, 2),
            random.between(3, 9),
            random.between(1, 4),
        ];
        let lengths = [random.between(8, 64), random.between(1, 200)].map(|len| len as usize);
        let password_len = random.between(0, 70);
        let password = random.bytes(password_len);
        let mut key = vec![0; lengths[1]];
        let own = with_key(&account(5, costs, [lengths[0], 1]), &password, &mut key);
        let book = book(&[small()[1], own, small()[0]], 5, &mut random);
        let words = own.parameters().matrix_words();
        for spare in [0, 1, 30] {
            let checked = agreed(book.check(&Proved, &password, 5, words + spare, &mut random));
            assert!(checked.is_ok_and(|checked| checked.matches));
        }
        for words in [0, words - 1] {
            let refused = agreed(book.check(&Proved, &password, 5, words, &mut random));
            assert_eq!(refused.err(), Some(Refusal::MatrixWords));
        }
        let longer = [&password[..], &[0]].concat();
        let wrong = agreed(book.check(&Proved, &longer, 5, words, &mut random));
        // A key of one byte may be that of another password too.
        assert!(wrong.is_ok_and(|wrong| !wrong.matches || lengths[1] == 1));
        let mut other = book.clone();
        let place = 25 + 14 + lengths[0] + random.between(0, lengths[1] as u64 - 1) as usize;
        other.bytes[place] ^= 1 << random.between(0, 7);
        let wrong = agreed(other.check(&Proved, &password, 5, words, &mut random));
        let matches = wrong.expect("the call is accepted").matches;
        answers[usize::from(matches)] += 1;
    }
    assert_eq!(answers, [300, 0]);
}

/// Each set of the conditions of checking a password.
#[test]
fn refusals_of_checking() {
    let mut random = Random::new(0x118);
    let good = book(&small(), 5, &mut random);
    for set in 0..16 {
        let holds = |bit: u32| set & 1 << bit != 0;
        let mut book = good.clone();
        book.used -= u64::from(holds(1));
        let password = &ZEROS[..if holds(0) { 1025 } else { 1024 }];
        let number = if holds(2) { 8 } else { 7 };
        let words = if holds(3) { 35 } else { 36 };
        let answer = agreed(book.check(&Proved, password, number, words, &mut random));
        let due = [2, 17, 18, 7]
            .into_iter()
            .zip(0..)
            .find(|(_, bit)| holds(*bit));
        assert_eq!(
            answer.err().map(Refusal::number),
            due.map(|(number, _)| number)
        );
    }
}

/// The numbers of the library's own answers to every operation; 0 is an accepted call.
fn refusals(book: &Book, password: &[u8], new: &Account, number: u32) -> [u8; 5] {
    let tell = |answer: Option<Result<(), Refusal>>| {
        let answer = answer.expect("the library has the operation");
        answer.err().map_or(0, Refusal::number)
    };
    let mut matrix = [0; 36];
    let Book { bytes, used } = book;
    let found = Proved.book_find(bytes, *used, number);
    let added = Proved.book_add(&mut bytes.clone(), *used, new);
    let removed = Proved.book_remove(&mut bytes.clone(), *used, number);
    let checked = Proved.book_check(password, bytes, *used, number, &mut matrix);
    let told = Proved
        .book_account(book.used_part(), 0)
        .expect("it has the operation");
    [
        tell(found.map(|answer| answer.map(drop))),
        tell(added.map(|answer| answer.map(drop))),
        tell(removed.map(|answer| answer.map(drop))),
        tell(checked.map(|answer| answer.map(drop))),
        u8::from(told == AccountValues::default()),
    ]
}

/// A small book that is good, has another byte in a head, or is cut anywhere.
fn good_or_damaged(random: &mut Random) -> Book {
    let spare = random.between(0, 40);
    let mut book = book(&small(), spare, random);
    match random.between(0, 3) {
        0 => book.used = random.between(0, 50),
        1 => {
            let place = random.between(0, 13) + 23 * random.between(0, 1);
            book.bytes[place as usize] = random.word() as u8;
        }
        _ => (),
    }
    book
}

/// Whatever bytes salts, keys and passwords hold, each operation gives the same refusal or none: in good books, in books with
/// a changed head, and in books that are cut anywhere.
#[test]
fn refusals_do_not_depend_on_secrets() {
    let mut random = Random::new(0x119);
    let mut met = BTreeSet::new();
    for _ in 0..6_000 {
        let one = good_or_damaged(&mut random);
        let mut other = one.clone();
        for place in (14..23).chain(37..48) {
            other.bytes[place] = random.word() as u8;
        }
        let password_len = random.between(1022, 1025);
        let number = [7, 0x0403_0201, 99][random.between(0, 2) as usize];
        let lengths = [random.between(7, 12), random.between(0, 3)];
        let new = account(number, [1, 3, 1], lengths.map(|len| len as usize));
        let due = refusals(&one, &random.bytes(password_len), &new, number);
        let [salt, key] = lengths.map(|len| random.bytes(len));
        let new = Account {
            salt: &salt,
            key: &key,
            ..new
        };
        let found = refusals(&other, &random.bytes(password_len), &new, number);
        assert_eq!(found, due, "{one:?} {other:?}");
        met.extend(due[..4].iter().copied());
    }
    assert_eq!(met, [0, 1, 2, 3, 7, 17, 18, 19].into());
}
