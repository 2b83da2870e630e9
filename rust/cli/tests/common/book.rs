//! Books of accounts, written and read by the tests themselves, with the second program's keys.

use super::line::Line;

/// An account: what a login line says too, and its number.
#[derive(Clone, Debug, PartialEq, Eq)]
pub struct Account {
    pub number: u32,
    pub values: Line,
}

impl Account {
    /// The account of a password, with the key by the second program.
    pub fn of_password(
        number: u32,
        password: &[u8],
        costs: [u64; 3],
        salt: &[u8],
        key_length: usize,
    ) -> Account {
        let values = Line::of_password(password, costs, salt, key_length);
        Account { number, values }
    }

    /// An account whose key is that of no password that is likely.
    pub fn of_no_password(number: u32, salt_length: usize, key_length: usize) -> Account {
        let byte = number as u8 | 0x80;
        let values = Line {
            t: 1,
            r: 4,
            c: 2,
            salt: vec![byte; salt_length],
            key: vec![byte ^ 1; key_length],
        };
        Account { number, values }
    }

    pub fn bytes(&self) -> Vec<u8> {
        let Line { t, r, c, salt, key } = &self.values;
        let numbers = [
            (u64::from(self.number), 4),
            (*t, 1),
            (*r, 2),
            (*c, 2),
            (salt.len() as u64, 1),
            (key.len() as u64, 2),
        ];
        let numbers = numbers.map(|(number, bytes)| number.to_le_bytes()[..bytes].to_vec());
        [&b"AC"[..], &numbers.concat(), salt, key].concat()
    }

    /// The line that `lyra2 book list` has for it.
    pub fn line(&self) -> String {
        let Line { t, r, c, salt, key } = &self.values;
        let (number, salt, key) = (self.number, salt.len(), key.len());
        let costs = format!("time {t}, rows {r}, columns {c}");
        format!("account {number}: {costs}, salt {salt} bytes, key {key} bytes\n")
    }
}

pub fn written(accounts: &[Account]) -> Vec<u8> {
    accounts.iter().flat_map(Account::bytes).collect()
}

/// The accounts of a book that has to be in order.
pub fn read(mut book: &[u8]) -> Vec<Account> {
    let mut accounts = Vec::new();
    while !book.is_empty() {
        let number = |from: usize, to: usize| {
            let bytes = book[from..to].iter().rev();
            bytes.fold(0, |number, byte| number << 8 | u64::from(*byte))
        };
        let (salt, key) = (14..14 + book[11] as usize, number(12, 14) as usize);
        let end = salt.end + key;
        let account = Account {
            number: number(2, 6) as u32,
            values: Line {
                t: number(6, 7),
                r: number(7, 9),
                c: number(9, 11),
                salt: book[salt.clone()].to_vec(),
                key: book[salt.end..end].to_vec(),
            },
        };
        assert_eq!(account.bytes(), book[..end]);
        accounts.push(account);
        book = &book[end..];
    }
    accounts
}
