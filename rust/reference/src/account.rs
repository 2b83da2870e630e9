//! An account of a book (request #110): its numbers, its salt, its key, and the bytes that stand for them.

use crate::derivation::Inputs;
use crate::input::Parameters;
use crate::refusal;
use crate::settings::Settings;

/// What stands before every account.
pub const MARK: &[u8; 2] = b"AC";
/// Bytes of an account before its salt: the mark, and 12 bytes of numbers.
pub const HEAD_BYTES: u64 = 14;

/// An account. One that is to be added may have any numbers; one that stands in a book has them within the limits.
#[derive(Clone, Copy, Debug, PartialEq, Eq)]
pub struct Account<'a> {
    /// The number that it is found by.
    pub number: u32,
    /// The time cost T.
    pub t: u64,
    /// The number of rows R.
    pub r: u64,
    /// The number of columns C.
    pub c: u64,
    /// The salt.
    pub salt: &'a [u8],
    /// The key.
    pub key: &'a [u8],
}

/// What stands at a place of a book, without salt and key; zeros where no account does.
#[derive(Clone, Copy, Debug, Default, PartialEq, Eq)]
pub struct AccountValues {
    /// Bytes of the whole account, its mark among them.
    pub size: u64,
    /// The account's number.
    pub number: u32,
    /// The time cost T.
    pub t: u64,
    /// The number of rows R.
    pub r: u64,
    /// The number of columns C.
    pub c: u64,
    /// Length of the salt in bytes.
    pub salt_len: u64,
    /// Length of the key in bytes.
    pub key_len: u64,
}

impl<'a> Account<'a> {
    /// The numbers that have limits. An account has no password; an empty one is within its limits and is never refused.
    pub fn parameters(&self) -> Parameters {
        self.inputs(b"").parameters(self.key.len())
    }

    /// What the account's key is derived from with this password. Every account goes with the usual settings.
    pub fn inputs<'b>(&self, password: &'b [u8]) -> Inputs<'b>
    where
        'a: 'b,
    {
        Inputs {
            password,
            salt: self.salt,
            t: self.t,
            r: self.r,
            c: self.c,
            settings: Settings::USUAL,
        }
    }

    /// The account without its salt and its key.
    pub fn values(&self) -> AccountValues {
        let (salt_len, key_len) = (self.salt.len() as u64, self.key.len() as u64);
        AccountValues {
            size: HEAD_BYTES + salt_len + key_len,
            number: self.number,
            t: self.t,
            r: self.r,
            c: self.c,
            salt_len,
            key_len,
        }
    }

    /// The account's bytes. Its numbers are within the limits, so that each has room in its bytes.
    pub fn encode(&self) -> Vec<u8> {
        let AccountValues {
            number,
            t,
            r,
            c,
            salt_len,
            key_len,
            ..
        } = self.values();
        [
            &MARK[..],
            &number.to_le_bytes(),
            &t.to_le_bytes()[..1],
            &r.to_le_bytes()[..2],
            &c.to_le_bytes()[..2],
            &salt_len.to_le_bytes()[..1],
            &key_len.to_le_bytes()[..2],
            self.salt,
            self.key,
        ]
        .concat()
    }

    /// The account with which some bytes begin: marked, whole and within the limits. What follows it is not looked at.
    pub fn decode(bytes: &'a [u8]) -> Option<Account<'a>> {
        let rest = bytes.strip_prefix(MARK)?;
        let (number, rest) = rest.split_first_chunk()?;
        let (t, rest) = take_number::<1>(rest)?;
        let (r, rest) = take_number::<2>(rest)?;
        let (c, rest) = take_number::<2>(rest)?;
        let (salt_len, rest) = take_number::<1>(rest)?;
        let (key_len, rest) = take_number::<2>(rest)?;
        let (salt, rest) = rest.split_at_checked(salt_len as usize)?;
        let (key, _) = rest.split_at_checked(key_len as usize)?;
        let account = Account {
            number: u32::from_le_bytes(*number),
            t,
            r,
            c,
            salt,
            key,
        };
        let within_limits = refusal::check_parameters(&account.parameters()).is_ok();
        within_limits.then_some(account)
    }
}

/// The number of the first N bytes, the lowest of which comes first, and the bytes after it.
fn take_number<const N: usize>(bytes: &[u8]) -> Option<(u64, &[u8])> {
    let (digits, rest) = bytes.split_first_chunk::<N>()?;
    let add = |number: u64, digit: &u8| 256 * number + u64::from(*digit);
    Some((digits.iter().rev().fold(0, add), rest))
}
