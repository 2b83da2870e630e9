//! A book of accounts in lent bytes: the accounts of a gateway that checks passwords by itself.

use crate::operations::{Checked, Counts};
use crate::parameters::{Parameters, KEY_LENGTHS, SALT_LENGTHS};
use crate::refusal::Refusal;
use std::fmt;

/// Bytes of an account before its salt: the mark `AC`, the number, T, R, C and the lengths of salt and key.
pub const ACCOUNT_HEAD: usize = 14;
/// Bytes of the largest account.
pub const ACCOUNT_MAX: usize = ACCOUNT_HEAD + *SALT_LENGTHS.end() + *KEY_LENGTHS.end();

/// An account, as it stands in a book.
#[derive(Clone, Copy)]
pub struct Account<'a> {
    /// Its number.
    pub number: u32,
    /// The cost parameters of its key.
    pub parameters: Parameters,
    /// The salt of its key.
    pub salt: &'a [u8],
    /// The key.
    pub key: &'a [u8],
}

impl Account<'_> {
    /// The bytes that it takes in a book.
    pub fn size(&self) -> usize {
        ACCOUNT_HEAD + self.salt.len() + self.key.len()
    }
}

/// Salt and key are left out: what is printed for a look ends up in logs.
impl fmt::Debug for Account<'_> {
    fn fmt(&self, f: &mut fmt::Formatter<'_>) -> fmt::Result {
        f.debug_struct("Account")
            .field("number", &self.number)
            .field("parameters", &self.parameters)
            .field("salt_length", &self.salt.len())
            .field("key_length", &self.key.len())
            .finish()
    }
}

/// A book: lent bytes, of which the first ones are used and hold the accounts, one after the other.
///
/// The bytes are anything that lends them: `&[u8]` or `Vec<u8>` for a book that is read, `&mut [u8]`, an array or a
/// `Vec<u8>` for one that is changed, which never grows by that. docs/ACCOUNT-BOOKS.md has the form of an account. A
/// key in a book goes with the usual rounds, rotation and mixer.
///
/// Making a `Book` checks nothing; every operation looks at the whole used part first, and refuses with
/// [`Refusal::BookForm`] if it is not nothing but whole accounts within the limits, no two of one number, or if the used
/// length passes the bytes. That takes time that grows with the square of the number of accounts.
///
/// A refused operation changes nothing, and the used length stays as it was. The bytes are as secret as the keys in
/// them, and the caller's to wipe.
///
/// ```
/// use lyra2::{derive, Account, Book, Parameters, Refusal};
///
/// let parameters = Parameters { time: 1, rows: 8, columns: 4 };
/// let (mut matrix, mut key) = ([0; 12 * 8 * 4], [0; 32]);
/// derive(b"password", b"saltsalt", parameters, &mut key, &mut matrix)?;
///
/// let mut book = Book::new([0; 1000], 0);
/// book.add(Account { number: 7, parameters, salt: b"saltsalt", key: &key })?;
/// assert_eq!((book.used(), book.find(7)), (14 + 8 + 32, Ok(0)));
/// assert!(book.check(b"password", 7, &mut matrix)?.same);
/// assert!(!book.check(b"Password", 7, &mut matrix)?.same);
///
/// book.remove(7)?;
/// assert_eq!(book.check(b"password", 7, &mut matrix), Err(Refusal::NoAccount));
/// # Ok::<(), Refusal>(())
/// ```
pub struct Book<B> {
    bytes: B,
    used: usize,
}

impl<B> Book<B> {
    /// A book in these bytes, of which so many are used. With 0 it has no accounts.
    pub fn new(bytes: B, used: usize) -> Book<B> {
        Book { bytes, used }
    }

    /// How many bytes are used.
    pub fn used(&self) -> usize {
        self.used
    }

    /// The lent bytes, to have them back. [`Book::used`] is to be asked before.
    pub fn into_bytes(self) -> B {
        self.bytes
    }
}

impl<B: AsRef<[u8]>> Book<B> {
    /// The used bytes; all that are lent where the used length passes them.
    pub fn used_bytes(&self) -> &[u8] {
        let bytes = self.bytes.as_ref();
        bytes.get(..self.used).unwrap_or(bytes)
    }

    fn lent(&self) -> lyra2_sys::Book<'_> {
        lyra2_sys::Book {
            bytes: self.bytes.as_ref(),
            used: self.used,
        }
    }

    /// The place of an account: the index of its first byte.
    ///
    /// Refusals, in the order of the checks: 17, 18.
    pub fn find(&self, number: u32) -> Result<usize, Refusal> {
        let mut place = 0;
        let answer = lyra2_sys::book_find(self.lent(), number, &mut place);
        Refusal::accepted(answer)?;
        Ok(place)
    }

    /// Requires that the book is in order; else the answer is [`Refusal::BookForm`]. It is a question for any account.
    pub fn require_good(&self) -> Result<(), Refusal> {
        match self.find(0) {
            Ok(_) | Err(Refusal::NoAccount) => Ok(()),
            Err(refusal) => Err(refusal),
        }
    }

    /// Tells whether the key of an account is that of the password, as [`check`](crate::check()) does with the account's
    /// costs, salt and key and the usual settings. The used matrix ends as zeros.
    ///
    /// [`Book::find`] and [`Book::account`] tell for which [`Parameters`] the matrix has to be.
    ///
    /// Refusals, in the order of the checks: 2, 17, 18, 7.
    pub fn check(
        &self,
        password: &[u8],
        number: u32,
        matrix: &mut [u64],
    ) -> Result<Checked, Refusal> {
        let (mut same, mut counts) = (0, [0; 3]);
        let answer = lyra2_sys::book_check(
            password,
            self.lent(),
            number,
            matrix,
            &mut same,
            &mut counts,
        );
        Refusal::accepted(answer)?;
        Ok(Checked {
            same: same == 1,
            counts: Counts::stored(counts),
        })
    }

    /// The account at a place; None where no whole account within the limits starts. It looks at no other byte of the
    /// book, refuses nothing and takes any place.
    pub fn account(&self, place: usize) -> Option<Account<'_>> {
        let used = self.used_bytes();
        let mut values = [0; 6];
        let size = lyra2_sys::book_account(used, place, &mut values);
        if size == 0 {
            return None;
        }
        let [number, time, rows, columns, salt_length, key_length] = values;
        let rest = &used[place + ACCOUNT_HEAD..];
        let (salt, rest) = rest.split_at(salt_length);
        Some(Account {
            number: u32::try_from(number).expect("the library reads four bytes"),
            parameters: Parameters {
                time,
                rows,
                columns,
            },
            salt,
            key: &rest[..key_length],
        })
    }

    /// The accounts from the first on, each with its place. Nothing is allocated.
    ///
    /// Each step looks at one account alone, so it takes no more time in a large book, and does not see whether the book
    /// is in order: in a damaged one the steps end where no account starts, short of the used length, and a number that
    /// stands there twice is met twice. [`Book::require_good`] tells.
    ///
    /// ```
    /// use lyra2::{Account, Book, Parameters};
    ///
    /// let parameters = Parameters { time: 1, rows: 8, columns: 4 };
    /// let mut book = Book::new([0; 100], 0);
    /// for number in [7, 3] {
    ///     book.add(Account { number, parameters, salt: b"saltsalt", key: b"a key" })?;
    /// }
    /// let numbers = book.accounts().map(|(place, account)| (place, account.number));
    /// assert!(numbers.eq([(0, 7), (27, 3)]));
    /// # Ok::<(), lyra2::Refusal>(())
    /// ```
    pub fn accounts(&self) -> impl Iterator<Item = (usize, Account<'_>)> {
        let mut next = 0;
        std::iter::from_fn(move || {
            let place = next;
            let account = self.account(place)?;
            next += account.size();
            Some((place, account))
        })
    }
}

impl<B: AsMut<[u8]>> Book<B> {
    /// Puts an account at the end; one of the same number that is there already is taken out first, so this one replaces
    /// it. All others keep their bytes and their order.
    ///
    /// The key comes ready, from [`derive`](crate::derive()) with the usual settings. [`Refusal::BookFull`] goes by the
    /// length that the book would end with, the old account gone, and leaves the old one where it is. Bytes that are no
    /// longer used become zero; those that were not used before and are not now keep their contents.
    ///
    /// Refusals, in the order of the checks: 1, 3, 10, 4, 5, 6, 17, 19.
    pub fn add(&mut self, account: Account) -> Result<(), Refusal> {
        let parts = lyra2_sys::LineParts {
            time: account.parameters.time,
            rows: account.parameters.rows,
            columns: account.parameters.columns,
            salt: account.salt,
            key: account.key,
        };
        let (bytes, mut used_after) = (self.bytes.as_mut(), 0);
        let answer = lyra2_sys::book_add(bytes, self.used, account.number, parts, &mut used_after);
        Refusal::accepted(answer)?;
        self.used = used_after;
        Ok(())
    }

    /// Takes an account out and moves the later ones up. The bytes that are no longer used become zero.
    ///
    /// Refusals, in the order of the checks: 17, 18.
    pub fn remove(&mut self, number: u32) -> Result<(), Refusal> {
        let (bytes, mut used_after) = (self.bytes.as_mut(), 0);
        let answer = lyra2_sys::book_remove(bytes, self.used, number, &mut used_after);
        Refusal::accepted(answer)?;
        self.used = used_after;
        Ok(())
    }
}

/// The bytes are left out: what is printed for a look ends up in logs.
impl<B> fmt::Debug for Book<B> {
    fn fmt(&self, f: &mut fmt::Formatter<'_>) -> fmt::Result {
        f.debug_struct("Book")
            .field("used", &self.used)
            .finish_non_exhaustive()
    }
}
