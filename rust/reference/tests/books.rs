//! The book of accounts: books written out by hand, each operation on them, each refusal and their order.

use lyra2_reference::book::{decode, encode};
use lyra2_reference::refusal::{BOOK_ADD_CHECKS, BOOK_CHECK_CHECKS};
use lyra2_reference::vectors::random::Random;
use lyra2_reference::{
    book_account, book_add, book_check, book_find, book_remove, check, derive, Account,
    AccountValues, Checked, Inputs, Refusal, Settings,
};

const MAX: u64 = u64::MAX;

/// The smallest account.
const FIRST: Account = Account {
    number: 7,
    t: 0,
    r: 3,
    c: 1,
    salt: b"saltsalt",
    key: b"k",
};

/// An account whose numbers show the order of their bytes.
const SECOND: Account = Account {
    number: 0x0403_0201,
    t: 255,
    r: 0x0102,
    c: 256,
    salt: b"SALTSALTS",
    key: b"KEY",
};

const THIRD: Account = Account {
    number: u32::MAX,
    t: 1,
    r: 16_384,
    c: 2,
    salt: b"saltsaltsaltsalt",
    key: b"keykeykey",
};

const FIRST_BYTES: &[u8] = b"AC\x07\0\0\0\x00\x03\0\x01\0\x08\x01\0saltsaltk";
const SECOND_BYTES: &[u8] = b"AC\x01\x02\x03\x04\xff\x02\x01\x00\x01\x09\x03\0SALTSALTSKEY";
const THIRD_BYTES: &[u8] =
    b"AC\xff\xff\xff\xff\x01\x00\x40\x02\0\x10\x09\0saltsaltsaltsaltkeykeykey";

/// Room for the three accounts and seven bytes more, none of which is zero.
fn book_of(parts: &[&[u8]]) -> (Vec<u8>, u64) {
    let mut book = parts.concat();
    let used = book.len() as u64;
    book.resize(88 + 7, 0xee);
    (book, used)
}

/// A book as it has to be after a call: these bytes, then so many zeros, then what no call has used.
fn expected(parts: &[&[u8]], zeros: usize) -> Vec<u8> {
    let mut book = [parts.concat(), vec![0; zeros]].concat();
    book.resize(88 + 7, 0xee);
    book
}

#[test]
fn accounts_by_hand() {
    assert_eq!(
        [FIRST_BYTES, SECOND_BYTES, THIRD_BYTES].map(<[u8]>::len),
        [23, 26, 39]
    );
    for (account, bytes) in [
        (FIRST, FIRST_BYTES),
        (SECOND, SECOND_BYTES),
        (THIRD, THIRD_BYTES),
    ] {
        assert_eq!(account.encode(), bytes);
        assert_eq!(Account::decode(bytes), Some(account));
        assert_eq!(account.values().size, bytes.len() as u64);
    }
    let all = [FIRST_BYTES, SECOND_BYTES, THIRD_BYTES].concat();
    assert_eq!(encode(&[FIRST, SECOND, THIRD]), all);
    assert_eq!(decode(&all), Some(vec![FIRST, SECOND, THIRD]));
    assert_eq!(decode(b""), Some(vec![]));
}

#[test]
fn found_accounts() {
    let (book, used) = book_of(&[FIRST_BYTES, SECOND_BYTES, THIRD_BYTES]);
    assert_eq!(book_find(&book, used, 7), Ok(0));
    assert_eq!(book_find(&book, used, 0x0403_0201), Ok(23));
    assert_eq!(book_find(&book, used, u32::MAX), Ok(49));
    for number in [0, 6, 8, 0x0102_0304, u32::MAX - 1] {
        assert_eq!(book_find(&book, used, number), Err(Refusal::NoAccount));
    }
    // An account past the used part is none of the book's.
    assert_eq!(book_find(&book, 49, u32::MAX), Err(Refusal::NoAccount));
    assert_eq!(book_find(&book, 0, 7), Err(Refusal::NoAccount));
    assert_eq!(book_find(b"", 0, 7), Err(Refusal::NoAccount));
}

#[test]
fn added_accounts() {
    let (mut book, _) = book_of(&[]);
    assert_eq!(book_add(&mut book, 0, &FIRST), Ok(23));
    assert_eq!(book, expected(&[FIRST_BYTES], 0));
    assert_eq!(book_add(&mut book, 23, &SECOND), Ok(49));
    assert_eq!(book, expected(&[FIRST_BYTES, SECOND_BYTES], 0));
    assert_eq!(book_add(&mut book, 49, &THIRD), Ok(88));
    assert_eq!(book, expected(&[FIRST_BYTES, SECOND_BYTES, THIRD_BYTES], 0));
}

/// The old account is gone, the new one stands last, whether it is shorter, longer or as long.
#[test]
fn replaced_accounts() {
    let (start, used) = book_of(&[FIRST_BYTES, SECOND_BYTES]);
    let mut book = start.clone();
    let shorter = Account {
        number: FIRST.number,
        key: b"K",
        ..FIRST
    };
    assert_eq!(book_add(&mut book, used, &shorter), Ok(49));
    let shorter_bytes = shorter.encode();
    assert_eq!(book, expected(&[SECOND_BYTES, &shorter_bytes], 0));

    let mut book = start.clone();
    let shorter = Account {
        number: SECOND.number,
        ..FIRST
    };
    assert_eq!(book_add(&mut book, used, &shorter), Ok(46));
    let shorter_bytes = shorter.encode();
    assert_eq!(book, expected(&[FIRST_BYTES, &shorter_bytes], 3));

    let mut book = start.clone();
    let longer = Account {
        number: FIRST.number,
        ..THIRD
    };
    assert_eq!(book_add(&mut book, used, &longer), Ok(65));
    assert_eq!(book, expected(&[SECOND_BYTES, &longer.encode()], 0));

    // The very same account in its own place: no byte changes.
    let mut book = start.clone();
    assert_eq!(book_add(&mut book, used, &SECOND), Ok(49));
    assert_eq!(book, start);
}

#[test]
fn removed_accounts() {
    let (start, used) = book_of(&[FIRST_BYTES, SECOND_BYTES, THIRD_BYTES]);
    let due = [
        (FIRST, expected(&[SECOND_BYTES, THIRD_BYTES], 23)),
        (SECOND, expected(&[FIRST_BYTES, THIRD_BYTES], 26)),
        (THIRD, expected(&[FIRST_BYTES, SECOND_BYTES], 39)),
    ];
    for (account, due) in due {
        let mut book = start.clone();
        let used_after = used - account.values().size;
        assert_eq!(book_remove(&mut book, used, account.number), Ok(used_after));
        assert_eq!(book, due);
    }
    let (mut book, used) = book_of(&[FIRST_BYTES]);
    assert_eq!(book_remove(&mut book, used, 7), Ok(0));
    assert_eq!(book, expected(&[], 23));
}

/// 19 goes by the length after the old account has gone, and a refusal leaves that account where it was.
#[test]
fn room_for_the_accounts() {
    let longer = Account {
        number: FIRST.number,
        ..THIRD
    };
    for (account, needed) in [(THIRD, 88), (longer, 65), (FIRST, 49), (SECOND, 49)] {
        let whole = [FIRST_BYTES, SECOND_BYTES].concat();
        let mut exact = whole.clone();
        exact.resize(needed, 0xee);
        assert_eq!(book_add(&mut exact, 49, &account), Ok(needed as u64));
        if needed > 49 {
            let mut short = whole.clone();
            short.resize(needed - 1, 0xee);
            let before = short.clone();
            let refused = book_add(&mut short, 49, &account);
            assert_eq!(refused, Err(Refusal::BookTooShort));
            assert_eq!(short, before);
        }
    }
    // A new account needs its bytes beside those of the others, also where a shorter one would fit.
    let mut full = [FIRST_BYTES, SECOND_BYTES].concat();
    let new = Account { number: 8, ..FIRST };
    assert_eq!(book_add(&mut full, 49, &new), Err(Refusal::BookTooShort));
    assert_eq!(book_add(&mut [], 0, &new), Err(Refusal::BookTooShort));
    assert_eq!(book_add(&mut [0; 22], 0, &new), Err(Refusal::BookTooShort));
    assert_eq!(book_add(&mut [0; 23], 0, &new), Ok(23));
}

/// A reader who goes on at the place plus the size meets every account.
#[test]
fn accounts_at_a_place() {
    let book = [FIRST_BYTES, SECOND_BYTES, THIRD_BYTES].concat();
    let mut place = 0;
    for account in [FIRST, SECOND, THIRD] {
        let values = book_account(&book, place);
        assert_eq!(values, account.values());
        place += values.size;
    }
    let second = AccountValues {
        size: 26,
        number: 0x0403_0201,
        t: 255,
        r: 0x0102,
        c: 256,
        salt_len: 9,
        key_len: 3,
    };
    assert_eq!(book_account(&book, 23), second);
    for place in [1, 22, 24, 87, 88, 89, 1 << 32 | 23, MAX] {
        assert_eq!(book_account(&book, place), AccountValues::default());
    }
    // The rest of the book may be damaged, and the number may stand there twice.
    let around = [b"AC", SECOND_BYTES, b"A", SECOND_BYTES].concat();
    assert_eq!(book_account(&around, 2), second);
    assert_eq!(book_account(&around, 0), AccountValues::default());
    assert_eq!(book_account(&around, 29), second);
    assert_eq!(
        book_account(&around[..around.len() - 1], 29),
        AccountValues::default()
    );
}

/// The used part cut anywhere but between two accounts is damaged.
#[test]
fn cut_books() {
    let (start, _) = book_of(&[FIRST_BYTES, SECOND_BYTES, THIRD_BYTES]);
    for used in 0..=88 {
        let mut book = start.clone();
        let whole = [0, 23, 49, 88].contains(&used);
        let due = |accepted| {
            if whole {
                accepted
            } else {
                Err(Refusal::DamagedBook)
            }
        };
        let number = 99;
        assert_eq!(
            book_find(&book, used, number),
            due(Err(Refusal::NoAccount)),
            "{used}"
        );
        assert_eq!(
            book_remove(&mut book, used, number),
            due(Err(Refusal::NoAccount))
        );
        assert_eq!(book, start);
        let mut long = [&start[..], &[0xee; 100]].concat();
        let account = Account { number, ..FIRST };
        assert_eq!(
            book_add(&mut long, used, &account),
            due(Ok(used + 23)),
            "{used}"
        );
    }
    // The last bytes are no account.
    assert_eq!(book_find(&start, 95, 7), Err(Refusal::DamagedBook));
}

/// The used length passes the slice, where something else stands at its end and where all of it is accounts.
#[test]
fn used_lengths_past_the_slice() {
    let (start, _) = book_of(&[FIRST_BYTES, SECOND_BYTES, THIRD_BYTES]);
    for used in [96, 97, 1 << 32, MAX] {
        assert_eq!(book_find(&start, used, 7), Err(Refusal::DamagedBook));
    }
    let full = &start[..88];
    assert_eq!(book_find(full, 88, 7), Ok(0));
    for used in [89, 1 << 32 | 88, MAX] {
        assert_eq!(book_find(full, used, 7), Err(Refusal::DamagedBook));
    }
}

/// A book of FIRST and SECOND with other bytes at a place.
fn changed(place: usize, bytes: &[u8]) -> Vec<u8> {
    let mut book = [FIRST_BYTES, SECOND_BYTES].concat();
    book[place..place + bytes.len()].copy_from_slice(bytes);
    book
}

/// A place, and bytes there with which the book is damaged.
const DAMAGED: [(usize, &[u8]); 17] = [
    (0, b"a"),
    (1, b"c"),
    (0, b"CA"),
    (23, b"\0"),
    (24, b"\0"),
    // R of 2, and of 16,385; C of 0, and of 257.
    (7, b"\x02"),
    (7, b"\x01\x40"),
    (9, b"\0"),
    (9, b"\x01\x01"),
    // Salts of 7 and of 9 bytes, keys of none and of 2 and of 257.
    (11, b"\x07"),
    (11, b"\x09"),
    (12, b"\0"),
    (12, b"\x02"),
    (12, b"\x01\x01"),
    // The number of the other.
    (2, b"\x01\x02\x03\x04"),
    (25, b"\x07\0\0\0"),
    // The second account goes past the used part.
    (35, b"\x04"),
];

/// T is any byte, R and C are within their limits, the number is any that the other has not, and salt and key any.
const HARMLESS: [(usize, &[u8]); 8] = [
    (6, b"\xff"),
    (7, b"\x04"),
    (7, b"\0\x40"),
    (9, b"\0\x01"),
    (2, b"\x01\x02\x03\x05"),
    (2, b"\xff\xff\xff\xff"),
    (14, b"ACACACAC"),
    (22, b"\0"),
];

#[test]
fn damaged_heads() {
    for (place, bytes) in DAMAGED {
        let mut book = changed(place, bytes);
        let before = book.clone();
        for number in [7, 0x0403_0201, 99] {
            let refused = Err(Refusal::DamagedBook);
            assert_eq!(book_find(&book, 49, number), refused, "{place} {bytes:?}");
            assert_eq!(book_remove(&mut book, 49, number), refused);
            assert_eq!(
                book_add(&mut book, 49, &Account { number, ..FIRST }),
                refused
            );
        }
        assert_eq!(book, before);
    }
    for (place, bytes) in HARMLESS {
        assert!(book_find(&changed(place, bytes), 49, SECOND.number).is_ok());
    }
}

/// An account whose limits are met on both sides.
#[test]
fn limits_of_an_account() {
    let long = [0x5a; 1025];
    let accepted = |t, r, c, salt: usize, key: usize| {
        let account = Account {
            number: 1,
            t,
            r,
            c,
            salt: &long[..salt],
            key: &long[..key],
        };
        let mut book = vec![0xee; 1200];
        let added = book_add(&mut book, 0, &account);
        if let Ok(used) = added {
            assert_eq!(decode(&book[..used as usize]), Some(vec![account]));
        }
        added
    };
    assert_eq!(accepted(0, 3, 1, 8, 1), Ok(23));
    assert_eq!(accepted(255, 16_384, 256, 64, 1024), Ok(1102));
    for (t, r, c, salt, key, refusal) in [
        (0, 3, 1, 8, 0, Refusal::KeyLength),
        (0, 3, 1, 8, 1025, Refusal::KeyLength),
        (0, 3, 1, 7, 1, Refusal::SaltTooShort),
        (0, 3, 1, 65, 1, Refusal::SaltTooLong),
        (0, 3, 1, 256 + 8, 1, Refusal::SaltTooLong),
        (256, 3, 1, 8, 1, Refusal::TimeCost),
        (1 << 32, 3, 1, 8, 1, Refusal::TimeCost),
        (0, 2, 1, 8, 1, Refusal::Rows),
        (0, 16_385, 1, 8, 1, Refusal::Rows),
        (0, 65_536 + 3, 1, 8, 1, Refusal::Rows),
        (0, 1 << 40, 1, 8, 1, Refusal::Rows),
        (0, 3, 0, 8, 1, Refusal::Columns),
        (0, 3, 257, 8, 1, Refusal::Columns),
        (0, 3, 65_536 + 1, 8, 1, Refusal::Columns),
    ] {
        assert_eq!(accepted(t, r, c, salt, key), Err(refusal));
    }
}

/// A call to add an account, by what its checks look at.
#[derive(Clone, Copy)]
struct Adding {
    account: Account<'static>,
    used: u64,
    room: usize,
}

const ZEROS: &[u8] = &[0; 1025];

/// Makes the condition of a check hold.
fn make_hold(adding: &mut Adding, check: Refusal) {
    match check {
        Refusal::KeyLength => adding.account.key = b"",
        Refusal::SaltTooShort => adding.account.salt = b"salt",
        Refusal::SaltTooLong => adding.account.salt = &ZEROS[..65],
        Refusal::TimeCost => adding.account.t = 256,
        Refusal::Rows => adding.account.r = 2,
        Refusal::Columns => adding.account.c = 257,
        Refusal::DamagedBook => adding.used = 48,
        Refusal::BookTooShort => adding.room = 49,
        _ => unreachable!(),
    }
}

fn add(adding: &Adding) -> Result<u64, Refusal> {
    let mut book = [FIRST_BYTES, SECOND_BYTES].concat();
    book.resize(adding.room, 0xee);
    let before = book.clone();
    let added = book_add(&mut book, adding.used, &adding.account);
    assert_eq!(added.is_err(), book == before);
    added
}

/// Each check of adding alone, and with each later one.
#[test]
fn order_of_the_checks_of_adding() {
    let fitting = Adding {
        account: THIRD,
        used: 49,
        room: 88,
    };
    assert_eq!(add(&fitting), Ok(88));
    for (place, first) in BOOK_ADD_CHECKS.iter().enumerate() {
        let mut alone = fitting;
        make_hold(&mut alone, *first);
        assert_eq!(add(&alone), Err(*first));
        for later in &BOOK_ADD_CHECKS[place + 1..] {
            // No salt is too short and too long.
            if (*first, *later) == (Refusal::SaltTooShort, Refusal::SaltTooLong) {
                continue;
            }
            let mut two = alone;
            make_hold(&mut two, *later);
            assert_eq!(add(&two), Err(*first), "{later:?}");
        }
    }
}

/// A book with an account whose key is that of a password.
fn book_with_key(password: &[u8], t: u64) -> Vec<u8> {
    let inputs = Inputs {
        password,
        salt: b"saltsalt",
        t,
        r: 3,
        c: 1,
        settings: Settings::USUAL,
    };
    let mut key = [0; 32];
    derive(&inputs, &mut key, &mut [0; 36]).expect("the inputs are within the limits");
    let account = Account {
        number: 5,
        key: &key,
        t,
        ..FIRST
    };
    encode(&[FIRST, account, SECOND])
}

/// The answer is that of the check of the account's key; the words past the used matrix are kept.
#[test]
fn checked_passwords() {
    for t in [0, 1, 2] {
        let book = book_with_key(b"password", t);
        let used = book.len() as u64;
        for password in [&b"password"[..], b"Password", b"", b"passwordpassword"] {
            let mut matrix = [MAX; 40];
            let found = book_check(password, &book, used, 5, &mut matrix).expect("accepted");
            assert_eq!(matrix[..36], [0; 36]);
            assert_eq!(matrix[36..], [MAX; 4]);
            let account = Account::decode(&book[23..]).expect("the second account");
            let inputs = account.inputs(password);
            let due: Checked = check(&inputs, account.key, &mut matrix).expect("accepted");
            assert_eq!(found, due);
            assert_eq!(found.matches, password == b"password");
            assert_eq!(found.counts.reduced, 3 * (t + 1));
        }
    }
}

/// Each check of checking alone, and with each later one.
#[test]
fn order_of_the_checks_of_checking() {
    let book = book_with_key(b"password", 1);
    let used = book.len() as u64;
    let call = |held: &[Refusal]| {
        let has = |check| held.contains(&check);
        let password = &ZEROS[..1024 + usize::from(has(Refusal::PasswordLength))];
        let used = used - u64::from(has(Refusal::DamagedBook));
        let number = 5 + u32::from(has(Refusal::NoAccount));
        let mut matrix = vec![MAX; 36 - usize::from(has(Refusal::MatrixWords))];
        let checked = book_check(password, &book, used, number, &mut matrix);
        assert_eq!(checked.is_err(), matrix.iter().all(|&word| word == MAX));
        checked.map(|checked| checked.matches)
    };
    assert_eq!(call(&[]), Ok(false));
    for (place, first) in BOOK_CHECK_CHECKS.iter().enumerate() {
        assert_eq!(call(&[*first]), Err(*first));
        for later in &BOOK_CHECK_CHECKS[place + 1..] {
            assert_eq!(call(&[*first, *later]), Err(*first), "{later:?}");
        }
    }
    // The other accounts' sizes do not matter: SECOND would need a matrix of 786,432 words and more.
    let mut matrix = [MAX; 36];
    let refused = book_check(b"", &book, used, SECOND.number, &mut matrix);
    assert_eq!(refused, Err(Refusal::MatrixWords));
    assert_eq!(matrix, [MAX; 36]);
}

/// Finding and removing have the same two checks, and a damaged book comes first.
#[test]
fn order_of_the_checks_of_finding() {
    let (book, used) = book_of(&[FIRST_BYTES, SECOND_BYTES]);
    for (used, number, due) in [
        (used, 8, Refusal::NoAccount),
        (used + 1, 8, Refusal::DamagedBook),
        (used + 1, 7, Refusal::DamagedBook),
    ] {
        assert_eq!(book_find(&book, used, number), Err(due));
        let mut lent = book.clone();
        assert_eq!(book_remove(&mut lent, used, number), Err(due));
        assert_eq!(lent, book);
    }
}

/// Whatever the bytes of salts and keys are, the refusal is the same.
#[test]
fn refusals_do_not_depend_on_salts_and_keys() {
    let mut random = Random::new(110);
    let (start, _) = book_of(&[FIRST_BYTES, SECOND_BYTES, THIRD_BYTES]);
    let heads = [0..14, 23..37, 49..63];
    for _ in 0..200 {
        let mut other = start.clone();
        for (place, byte) in other.iter_mut().enumerate() {
            if !heads.iter().any(|head| head.contains(&place)) {
                *byte = random.word() as u8;
            }
        }
        for used in [23, 48, 49, 60, 88, 95, 96] {
            for number in [7, u32::MAX] {
                let due = book_find(&start, used, number);
                assert_eq!(book_find(&other, used, number), due);
            }
        }
    }
}

/// An account with numbers that differ from place to place.
fn account((place, [salt, key]): (usize, &[Vec<u8>; 2])) -> Account<'_> {
    let place = place as u64;
    Account {
        number: (place as u32).wrapping_mul(0x9e37_79b9),
        t: place % 256,
        r: 3 + 97 * (place % 168),
        c: 1 + place % 256,
        salt,
        key,
    }
}

/// A book written from a list of accounts and read again, of sizes up to some hundred accounts.
#[test]
fn round_trips() {
    let mut random = Random::new(111);
    for count in [0, 1, 2, 3, 10, 300] {
        let texts: Vec<[Vec<u8>; 2]> = (0..count)
            .map(|_| {
                let [salt, key] = [random.between(8, 64), random.between(1, 200)];
                [salt, key].map(|len| random.bytes(len))
            })
            .collect();
        let accounts: Vec<Account> = texts.iter().enumerate().map(account).collect();
        let bytes = encode(&accounts);
        assert_eq!(decode(&bytes), Some(accounts.clone()));
        // Added one by one the same book comes out, and removed one by one it is zeros.
        let mut book = vec![0xee; bytes.len()];
        let add = |used, account| book_add(&mut book, used, account).expect("there is room");
        assert_eq!(accounts.iter().fold(0, add), bytes.len() as u64);
        assert_eq!(book, bytes);
        let remove = |used, account: &Account| {
            book_remove(&mut book, used, account.number).expect("the account is there")
        };
        assert_eq!(accounts.iter().fold(bytes.len() as u64, remove), 0);
        assert!(book.iter().all(|&byte| byte == 0));
    }
}
