//! Books of accounts: a program held against the second one, with everything that is lent between guards.

use crate::compare::{compare_used, same};
use crate::guarded::{byte, word, Guarded};
use lyra2_reference::vectors::random::Random;
use lyra2_reference::vectors::{random_book, LentBook, LoginValues, Question, Subject};
use lyra2_reference::{
    book_account, book_add, book_check, book_find, book_remove, Account, AccountValues, Checked,
    Refusal,
};

/// A book on its way through calls to both programs, which have left it the same so far.
#[derive(Clone, Debug)]
pub struct Book {
    /// All of its bytes, used or not.
    pub bytes: Vec<u8>,
    /// The used length.
    pub used: u64,
}

impl From<LentBook> for Book {
    fn from(LentBook { bytes, used }: LentBook) -> Book {
        Book { bytes, used }
    }
}

impl Book {
    /// The used part; all bytes where the used length passes them.
    pub fn used_part(&self) -> &[u8] {
        let used = usize::try_from(self.used).unwrap_or(usize::MAX);
        &self.bytes[..used.min(self.bytes.len())]
    }

    /// Finds an account with both programs, and returns what both answered.
    pub fn find(
        &self,
        subject: &impl Subject,
        number: u32,
        random: &mut Random,
    ) -> Result<Result<u64, Refusal>, String> {
        let lent = Guarded::holding(random, &self.bytes, byte);
        let due = book_find(lent.lent(), self.used, number);
        let found = subject
            .book_find(lent.lent(), self.used, number)
            .ok_or("the program finds no accounts")?;
        same("answer", &due, &found)
            .and_then(|()| lent.used("book", 0).map(drop))
            .map_err(|what| self.at("book_find", number, &what))?;
        Ok(due)
    }

    /// Adds an account with both programs. The book is then what both left, byte by byte.
    pub fn add(
        &mut self,
        subject: &impl Subject,
        account: &Account,
        random: &mut Random,
    ) -> Result<Result<u64, Refusal>, String> {
        let salt = Guarded::holding(random, account.salt, byte);
        let key = Guarded::holding(random, account.key, byte);
        let account = Account {
            salt: salt.lent(),
            key: key.lent(),
            ..*account
        };
        let call = |bytes: &mut [u8], used| subject.book_add(bytes, used, &account);
        let due = |bytes: &mut [u8], used| book_add(bytes, used, &account);
        let answer = self
            .change(call, due, random)
            .and_then(|answer| {
                salt.used("salt", 0)?;
                key.used("key", 0)?;
                Ok(answer)
            })
            .map_err(|what| {
                format!(
                    "{account:?}: {}",
                    self.at("book_add", account.number, &what)
                )
            });
        self.keep(answer?)
    }

    /// Removes an account with both programs. The book is then what both left, byte by byte.
    pub fn remove(
        &mut self,
        subject: &impl Subject,
        number: u32,
        random: &mut Random,
    ) -> Result<Result<u64, Refusal>, String> {
        let call = |bytes: &mut [u8], used| subject.book_remove(bytes, used, number);
        let due = |bytes: &mut [u8], used| book_remove(bytes, used, number);
        let answer = self
            .change(call, due, random)
            .map_err(|what| self.at("book_remove", number, &what));
        self.keep(answer?)
    }

    /// Lends a copy of the book to either program, and returns what both answered and left.
    fn change(
        &self,
        call: impl Fn(&mut [u8], u64) -> Option<Result<u64, Refusal>>,
        due: impl Fn(&mut [u8], u64) -> Result<u64, Refusal>,
        random: &mut Random,
    ) -> Result<(Result<u64, Refusal>, Vec<u8>), String> {
        let mut due_bytes = self.bytes.clone();
        let due = due(&mut due_bytes, self.used);
        let mut lent = Guarded::holding(random, &self.bytes, byte);
        let found = call(lent.lent_mut(), self.used).ok_or("the program changes no books")?;
        same("answer", &due, &found)?;
        compare_used("book", &due_bytes, &lent)?;
        Ok((due, due_bytes))
    }

    /// Goes on with what a call left. A refused one has left all of it, and tells no used length.
    fn keep(
        &mut self,
        (answer, bytes): (Result<u64, Refusal>, Vec<u8>),
    ) -> Result<Result<u64, Refusal>, String> {
        if answer.is_err() {
            same("a refused book", &self.bytes, &bytes)?;
        }
        self.bytes = bytes;
        self.used = answer.unwrap_or(self.used);
        Ok(answer)
    }

    /// Checks a password with both programs, with a matrix of so many words, and returns what both answered.
    pub fn check(
        &self,
        subject: &impl Subject,
        password: &[u8],
        number: u32,
        matrix_words: u64,
        random: &mut Random,
    ) -> Result<Result<Checked, Refusal>, String> {
        let password = Guarded::holding(random, password, byte);
        let lent = Guarded::holding(random, &self.bytes, byte);
        let mut matrix = Guarded::random(random, matrix_words as usize, word);
        let mut due_matrix = matrix.lent().to_vec();
        let due = book_check(
            password.lent(),
            &self.bytes,
            self.used,
            number,
            &mut due_matrix,
        );
        let found = subject
            .book_check(
                password.lent(),
                lent.lent(),
                self.used,
                number,
                matrix.lent_mut(),
            )
            .ok_or("the program checks no accounts")?;
        same("answer", &due, &found)
            .and_then(|()| compare_used("matrix", &due_matrix, &matrix))
            .and_then(|()| password.used("password", 0).map(drop))
            .and_then(|()| lent.used("book", 0).map(drop))
            .map_err(|what| self.at("book_check", number, &what))?;
        Ok(due)
    }

    /// Reads a place of the used part with both programs, and returns what both answered.
    pub fn account(
        &self,
        subject: &impl Subject,
        place: u64,
        random: &mut Random,
    ) -> Result<AccountValues, String> {
        let lent = Guarded::holding(random, self.used_part(), byte);
        let due = book_account(lent.lent(), place);
        let found = subject
            .book_account(lent.lent(), place)
            .ok_or("the program reads no accounts")?;
        same("answer", &due, &found)
            .and_then(|()| lent.used("book", 0).map(drop))
            .map_err(|what| self.at("book_account", place, &what))?;
        Ok(due)
    }

    /// Reads the accounts of a good book one after the other with both programs, and returns their numbers.
    pub fn numbers(&self, subject: &impl Subject, random: &mut Random) -> Result<Vec<u32>, String> {
        let (mut numbers, mut place) = (Vec::new(), 0);
        while place < self.used {
            let values = self.account(subject, place, random)?;
            if values.size == 0 {
                return Err(format!("the reader stops at {place} of {}", self.used));
            }
            numbers.push(values.number);
            place += values.size;
        }
        Ok(numbers)
    }

    /// Says in which book a call went wrong; of a long one, by its lengths alone.
    fn at(&self, op: &str, asked: impl std::fmt::Display, what: &str) -> String {
        let (len, used) = (self.bytes.len(), self.used);
        let listed: String = self
            .bytes
            .iter()
            .map(|byte| format!("{byte:02x}"))
            .collect();
        let listed = if len <= 400 {
            listed
        } else {
            format!("{len} bytes")
        };
        format!("{op} of {asked} in {listed}, used {used}: {what}")
    }
}

/// An account with values of its own.
pub fn with_account<A>(number: u32, values: &LoginValues, call: impl FnOnce(&Account) -> A) -> A {
    call(&Account {
        number,
        t: values.t,
        r: values.r,
        c: values.c,
        salt: &values.salt.to_vec(),
        key: &values.key.to_vec(),
    })
}

/// Draws a question of the second program about a book and puts it to both.
pub fn compare_question(
    subject: &impl Subject,
    random: &mut Random,
) -> Result<Result<(), Refusal>, String> {
    Ok(match random_book::question(random) {
        Question::BookFind { book, number } => {
            let book = Book::from(book);
            book.find(subject, number, random)?.map(drop)
        }
        Question::BookAdd {
            book,
            number,
            values,
        } => {
            let mut book = Book::from(book);
            let add = |account: &Account| book.add(subject, account, random);
            with_account(number, &values, add)?.map(drop)
        }
        Question::BookRemove { book, number } => {
            let mut book = Book::from(book);
            book.remove(subject, number, random)?.map(drop)
        }
        Question::BookCheck {
            password,
            book,
            number,
            matrix_words,
        } => {
            let (book, password) = (Book::from(book), password.to_vec());
            let answer = book.check(subject, &password, number, matrix_words, random)?;
            answer.map(drop)
        }
        Question::BookAccount { used_part, place } => {
            let used = used_part.len() as u64;
            let bytes = used_part;
            let told = Book { bytes, used }.account(subject, place, random);
            told.map(|_| Ok(()))?
        }
        other => return Err(format!("{other:?} is no question about a book")),
    })
}

/// Takes an empty book of random bytes through so many calls, and returns what they answered: many are refused. After
/// each call both programs have left the same bytes, and the reader meets the same accounts.
pub fn compare_history(
    subject: &impl Subject,
    steps: u64,
    random: &mut Random,
) -> Result<Vec<Result<(), Refusal>>, String> {
    let room = random.between(0, 400);
    let mut book = Book {
        bytes: random.bytes(room),
        used: 0,
    };
    let mut answers = Vec::new();
    for _ in 0..steps {
        let number = random_book::number(random);
        let answer = match random.between(1, 8) {
            1..=4 => {
                let values = random_book::values(random);
                let add = |account: &Account| book.add(subject, account, random);
                with_account(number, &values, add)?.map(drop)
            }
            5 | 6 => book.remove(subject, number, random)?.map(drop),
            _ => book.find(subject, number, random)?.map(drop),
        };
        answers.push(answer);
        book.numbers(subject, random)?;
    }
    Ok(answers)
}
