//! `lyra2 book add`: an account from a password.

use crate::book::{self, Missing};
use crate::failure::Failure;
use crate::input::Input;
use crate::options::{
    BookOption, CostOptions, FreshSaltOptions, KeyLengthOption, NumberOption, PasswordOption,
};
use crate::outcome::Outcome;
use crate::password::Typed;
use crate::secret::{zeros, Secret};
use crate::{help, memory};
use clap::Args;
use lyra2::{Account, Lengths, ACCOUNT_MAX, USUAL_ROUNDS};

/// Add an account to a book, or replace the one of its number
#[derive(Args)]
#[command(after_help = help::paragraphs(&[
    "A file that is not there is a book without accounts, and made for its owner alone. The account is put last, and one \
     of the same number is taken out. Printed is whether it was added or replaced.",
    "The salt is 16 bytes from the system's random source, or as many as --salt-length says, unless one is given.",
    help::BOOK_CHANGE,
    help::PASSWORD,
    help::TYPED_TWICE,
    help::STATUS,
]))]
pub struct Add {
    #[command(flatten)]
    book: BookOption,
    #[command(flatten)]
    number: NumberOption,
    #[command(flatten)]
    key: KeyLengthOption,
    #[command(flatten)]
    costs: CostOptions,
    #[command(flatten)]
    salt: FreshSaltOptions,
    #[command(flatten)]
    password: PasswordOption,
}

impl Add {
    pub fn run(self) -> Result<Outcome, Failure> {
        let input = self.read()?;
        let key = self.derive(&input)?;
        let number = self.number.number;
        let account = Account {
            number,
            parameters: input.settings.parameters,
            salt: &input.salt,
            key: &key,
        };
        let path = &self.book.book;
        let is_there = book::change(path, ACCOUNT_MAX, Missing::Empty, |book| {
            // Adding looks whether the book is in order, and does not tell whether it replaces.
            let is_there = book.accounts().any(|(_, account)| account.number == number);
            book.add(account)?;
            Ok(is_there)
        })?;
        let word = if is_there { "replaced" } else { "added" };
        Ok(Outcome::result(format!("account {number} {word}\n")))
    }

    /// Reads the password last: nobody types one for an account or a book that is refused.
    fn read(&self) -> Result<Input, Failure> {
        let parameters = self.costs.parameters();
        let salt = self.salt.read()?;
        let lengths = Lengths {
            key: self.key.key_length,
            password: 0,
            salt: salt.len(),
        };
        lyra2::cost(lengths, parameters, USUAL_ROUNDS)?;
        book::require_changeable(&self.book.book)?;
        Ok(Input {
            settings: parameters.into(),
            salt,
            password: self.password.read(Typed::Twice)?,
        })
    }

    fn derive(&self, input: &Input) -> Result<Secret, Failure> {
        input.ask_cost(self.key.key_length)?;
        let mut key = zeros(self.key.key_length);
        let mut matrix = memory::matrix(input.settings.parameters)?;
        input.derive(&mut key, &mut matrix)?;
        Ok(key)
    }
}
