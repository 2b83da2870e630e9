//! Books of accounts: what `book add` makes, what `book list`, `book check` and `book remove` say, and what is refused.

mod common;

use common::book::{read, written, Account};
use common::folder::Folder;
use common::{hex, limited, lyra2, words, Run, TemporaryFile};
use std::fs::File;

const COSTS: &str = "--time 1 --rows 4 --columns 2 --key-length 32";
const SALT: &[u8] = b"saltsalt";

/// Adds an account with these options and a key of 32 bytes.
fn added(file: &TemporaryFile, number: u32, options: &str, password: &[u8]) -> Run {
    let name = file.name();
    let line = format!("book add --book {name} --number {number} {COSTS} {options}");
    lyra2(&words(&line), password)
}

/// Asks a command about an account of a book.
fn asked(command: &str, file: &TemporaryFile, number: u32, input: &[u8]) -> Run {
    let name = file.name();
    let line = format!("book {command} --book {name} --number {number}");
    lyra2(&words(&line), input)
}

fn checked(file: &TemporaryFile, number: u32, password: &[u8]) -> Run {
    asked("check", file, number, password)
}

fn listed(file: &TemporaryFile) -> Run {
    lyra2(&["book", "list", "--book", file.name()], b"")
}

/// The account of a password with the usual costs of these tests.
fn due(number: u32, password: &[u8]) -> Account {
    Account::of_password(number, password, [1, 4, 2], SALT, 32)
}

#[track_caller]
fn is_yes(run: Run) {
    assert_eq!(run.result(), "yes\n");
}

#[track_caller]
fn is_no(run: Run) {
    let found = (run.status, run.output.as_str(), run.error.as_str());
    assert_eq!(found, (Some(1), "no\n", ""));
}

const NOT_A_BOOK: &str =
    "refused 17: the book must be whole accounts within the limits, no number twice";
const NO_ACCOUNT: &str = "refused 18: the book has no account of this number";

#[test]
fn accounts_with_a_given_salt_are_the_second_programs() {
    let file = TemporaryFile::new();
    let mut accounts: Vec<Account> = Vec::new();
    for (number, costs, salt, key_length) in [
        (7, [1, 4, 2], &b"saltsalt"[..], 32),
        (0, [0, 3, 1], b"\0\xff\xfe saltsalt", 1),
        (u32::MAX, [255, 3, 1], &[0x5a; 63], 97),
        (1 << 24, [2, 300, 17], &[0xfb; 64], 1024),
    ] {
        let [t, r, c] = costs;
        let options = format!("--time {t} --rows {r} --columns {c} --key-length {key_length}");
        let (name, salt_digits) = (file.name(), hex(salt));
        let line =
            format!("book add --book {name} --number {number} {options} --salt {salt_digits}");
        let printed = lyra2(&words(&line), b"pass\n").result();
        assert_eq!(printed, format!("account {number} added\n"));
        let account = Account::of_password(number, b"pass", costs, salt, key_length);
        accounts.push(account);
        assert_eq!(file.bytes(), written(&accounts));
        is_yes(checked(&file, number, b"pass"));
        is_no(checked(&file, number, b"word"));
    }
    let lines: String = accounts.iter().map(Account::line).collect();
    assert_eq!(listed(&file).result(), lines);
}

/// Of a salt nobody gave every part differs from account to account.
#[test]
fn without_a_given_salt_it_is_random() {
    let file = TemporaryFile::new();
    for (number, options, length) in [
        (1, "", 16),
        (2, "", 16),
        (3, "--salt-length 8", 8),
        (4, "--salt-length 64", 64),
    ] {
        added(&file, number, options, b"pass").result();
        let accounts = read(&file.bytes());
        let account = accounts.last().expect("the new account");
        let salt = &account.values.salt;
        assert_eq!(salt.len(), length);
        assert_eq!(
            *account,
            Account::of_password(number, b"pass", [1, 4, 2], salt, 32)
        );
    }
    let salts = read(&file.bytes()).into_iter();
    let mut starts: Vec<Vec<u8>> = salts
        .map(|account| account.values.salt[..8].to_vec())
        .collect();
    starts.sort();
    starts.dedup();
    assert_eq!(starts.len(), 4);
}

#[test]
fn an_account_is_replaced_by_a_later_one_and_removed() {
    let file = TemporaryFile::new();
    let salt = format!("--salt {}", hex(SALT));
    for number in [1, 2, 3] {
        added(&file, number, &salt, b"pass").result();
    }
    let printed = added(&file, 2, &salt, b"another").result();
    assert_eq!(printed, "account 2 replaced\n");
    let accounts = [due(1, b"pass"), due(3, b"pass"), due(2, b"another")];
    assert_eq!(file.bytes(), written(&accounts));
    is_yes(checked(&file, 2, b"another"));
    is_no(checked(&file, 2, b"pass"));
    for (number, left) in [(3, &[0, 2][..]), (1, &[2]), (2, &[])] {
        let printed = asked("remove", &file, number, b"").result();
        assert_eq!(printed, format!("account {number} removed\n"));
        let left: Vec<Account> = left.iter().map(|place| accounts[*place].clone()).collect();
        assert_eq!(file.bytes(), written(&left));
        let line = asked("remove", &file, number, b"").failure();
        assert_eq!(line, format!("lyra2 book remove: {NO_ACCOUNT}"));
    }
    assert_eq!(listed(&file).result(), "");
    added(&file, 9, &salt, b"pass").result();
    assert_eq!(file.bytes(), written(&[due(9, b"pass")]));
}

#[test]
fn a_book_of_many_accounts() {
    let numbers = (0..2000_u32).map(|count| count.wrapping_mul(2_654_435_769));
    let of = |number: u32| {
        let lengths = [8 + number % 57, 1 + number % 90].map(|length| length as usize);
        Account::of_no_password(number, lengths[0], lengths[1])
    };
    let mut accounts: Vec<Account> = numbers.map(of).collect();
    let file = TemporaryFile::holding(&written(&accounts));
    let lines: String = accounts.iter().map(Account::line).collect();
    assert_eq!(listed(&file).result(), lines);
    let salt = format!("--salt {}", hex(SALT));
    added(&file, 3, &salt, b"pass").result();
    accounts.push(due(3, b"pass"));
    let removed = accounts.remove(1000);
    asked("remove", &file, removed.number, b"").result();
    assert_eq!(file.bytes(), written(&accounts));
    is_yes(checked(&file, 3, b"pass"));
    is_no(checked(&file, accounts[1998].number, b"pass"));
    // One number more that is there already.
    let twice = [file.bytes(), accounts[0].bytes()].concat();
    let twice = TemporaryFile::holding(&twice);
    let line = listed(&twice).failure();
    assert_eq!(line, format!("lyra2 book list: {NOT_A_BOOK}"));
}

/// Whichever command finds the damage, the file stays as it is, and no password is asked for.
#[test]
fn a_damaged_book_is_refused_and_left_alone() {
    let accounts = [due(1, b"pass"), due(2, b"pass")];
    let good = written(&accounts);
    let changed = |place: usize, byte: u8| {
        let mut bytes = good.clone();
        bytes[place] = byte;
        bytes
    };
    let size = accounts[0].bytes().len();
    for damaged in [
        good[..good.len() - 1].to_vec(),
        good[..size + 13].to_vec(),
        good[..1].to_vec(),
        [&good[..], b"\n"].concat(),
        [&good[..], &good[..size]].concat(),
        changed(0, b'a'),
        changed(size + 1, b'c'),
        changed(2, 2),
        changed(7, 2),
        changed(11, 7),
        changed(13, 5),
        b"a file that is no book".to_vec(),
    ] {
        let file = TemporaryFile::holding(&damaged);
        for (command, run) in [
            ("list", listed(&file)),
            ("check", checked(&file, 1, b"pass")),
            ("remove", asked("remove", &file, 1, b"")),
            ("add", added(&file, 1, "", b"pass")),
            ("add", added(&file, 3, "", b"pass")),
        ] {
            let due = format!("lyra2 book {command}: {NOT_A_BOOK}");
            assert_eq!(run.failure(), due, "{damaged:?}");
            assert_eq!(file.bytes(), damaged);
        }
    }
}

/// Options in place of others, and the refusal that is due.
const REFUSED: [(&str, &str, u32, &str); 8] = [
    (
        "--key-length 32",
        "--key-length 0",
        1,
        "the key must be 1 to 1024",
    ),
    (
        "--key-length 32",
        "--key-length 1025",
        1,
        "the key must be 1 to 1024",
    ),
    ("16", "16", 2, "the password must be 0 to 1024"),
    ("--salt-length 16", "--salt 00112233445566", 3, "at least 8"),
    ("--salt-length 16", "--salt-length 65", 10, "at most 64"),
    ("--time 1", "--time 256", 4, "T must be 0 to 255"),
    ("--rows 4", "--rows 2", 5, "R must be 3 to 16384"),
    ("--columns 2", "--columns 257", 6, "C must be 1 to 256"),
];

#[test]
fn refused_accounts_and_passwords() {
    let book = written(&[due(1, b"pass")]);
    let file = TemporaryFile::holding(&book);
    let long = [b'x'; 1025];
    let line = format!(
        "book add --book {} --number 1 {COSTS} --salt-length 16",
        file.name()
    );
    for (option, other, number, limit) in REFUSED {
        let line = line.replace(option, other);
        let found = lyra2(&words(&line), &long).failure();
        let due = format!("lyra2 book add: refused {number}: ");
        assert!(found.starts_with(&due) && found.contains(limit), "{found}");
        assert_eq!(file.bytes(), book);
    }
    let found = checked(&file, 1, &long).failure();
    let due = "lyra2 book check: refused 2: the password must be 0 to 1024 bytes long";
    assert_eq!(found, due);
    for command in ["check", "remove"] {
        let found = asked(command, &file, 2, b"pass").failure();
        assert_eq!(found, format!("lyra2 book {command}: {NO_ACCOUNT}"));
        assert_eq!(file.bytes(), book);
    }
}

/// Only `add` takes a file that is not there for a book without accounts; refused, it makes none.
#[test]
fn a_file_that_is_not_there() {
    let folder = Folder::new();
    let name = format!("{}/book", folder.name);
    for line in ["list", "check --number 1", "remove --number 1"] {
        let found = lyra2(&words(&format!("book {line} --book {name}")), b"").failure();
        let command = words(line)[0];
        let due = format!("lyra2 book {command}: {name:?}: No such file or directory (os error 2)");
        assert_eq!(found, due);
    }
    let line = format!("book add --book {name} --number 1 {COSTS}");
    lyra2(&words(&line), &[b'x'; 1025]).failure();
    assert_eq!(folder.names(), [""; 0]);
    lyra2(&words(&line), b"pass").result();
    assert_eq!(folder.names(), ["book"]);
    // An empty file is a book without accounts to all of them.
    let empty = TemporaryFile::holding(b"");
    assert_eq!(listed(&empty).result(), "");
    let found = checked(&empty, 1, b"pass").failure();
    assert_eq!(found, format!("lyra2 book check: {NO_ACCOUNT}"));
    added(&empty, 1, "", b"pass").result();
    assert_eq!(read(&empty.bytes()).len(), 1);
}

/// No list and no failure shows a salt, a key or a password.
#[test]
fn secrets_are_not_shown() {
    let account = due(1, b"hunter2");
    let file = TemporaryFile::holding(&account.bytes());
    let mut shown = Vec::new();
    for run in [
        listed(&file),
        checked(&file, 1, b"hunter2"),
        checked(&file, 1, b"hunter3"),
        checked(&file, 2, b"hunter2"),
        added(&file, 1, "--salt 0123", b"hunter2"),
        added(&file, 1, "hunter2", b"hunter2"),
        added(&file, 5, "", b"hunter2"),
        asked("remove", &file, 5, b"hunter2"),
    ] {
        shown.push(run.output + &run.error);
    }
    let shown = shown.concat();
    assert!(shown.contains("account 1: ") && shown.contains("yes\nno\n"));
    let digits = [
        hex(&account.values.salt[..4]),
        hex(&account.values.key[..4]),
    ];
    for secret in ["hunter", "salts", &digits[0], &digits[1]] {
        assert!(!shown.contains(secret), "{shown}");
    }
}

/// Files far longer than any book are not read, and a book for which there is no memory is told.
#[test]
fn large_files() {
    const MOST: u64 = 1 << 24;
    let file = TemporaryFile::new();
    let name = file.name();
    let holes = File::create(file.path()).expect("a file");
    holes.set_len(MOST + 1).expect("a file with holes");
    let words_due = "more than 16777216 bytes, which no book has";
    for (command, run) in [
        ("list", listed(&file)),
        ("remove", asked("remove", &file, 1, b"")),
        ("add", added(&file, 1, "", b"pass")),
    ] {
        let due = format!("lyra2 book {command}: {name:?}: {words_due}");
        assert_eq!(run.failure(), due);
    }
    holes.set_len(MOST).expect("a file with holes");
    let line = listed(&file).failure();
    assert_eq!(line, format!("lyra2 book list: {NOT_A_BOOK}"));
    let ended = limited(14_000, &format!("book list --book {name}")).output();
    let line = Run::of(ended.expect("the program starts")).failure();
    assert_eq!(
        line,
        "lyra2 book list: no memory for the book of 16777216 bytes"
    );
}

/// A book that is as long as one can be takes no account more, but one in the place of another.
#[test]
fn a_book_that_is_full() {
    const MOST: usize = 1 << 24;
    const LARGEST: usize = 14 + 64 + 1024;
    let mut accounts: Vec<Account> = Vec::new();
    let mut left = MOST;
    while left > 0 {
        // The last two share what is left.
        let size = match left / LARGEST {
            0 => left,
            1 => left / 2,
            _ => LARGEST,
        };
        let number = accounts.len() as u32;
        accounts.push(Account::of_no_password(number, 64, size - 14 - 64));
        left -= size;
    }
    let file = TemporaryFile::holding(&written(&accounts));
    let before = file.bytes();
    assert_eq!(before.len(), MOST);
    let number = accounts.len() as u32;
    let line = added(&file, number, "--salt-length 8", b"pass").failure();
    let full = "lyra2 book add: refused 19: the book must have room for the account";
    assert_eq!(line, full);
    assert!(file.bytes() == before);
    let salt = format!("--salt {}", hex(SALT));
    added(&file, 0, &salt, b"pass").result();
    accounts.remove(0);
    accounts.push(due(0, b"pass"));
    assert!(file.bytes() == written(&accounts));
}
