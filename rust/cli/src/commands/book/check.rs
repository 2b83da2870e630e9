//! `lyra2 book check`: whether a password is that of an account.

use crate::failure::Failure;
use crate::input::Input;
use crate::options::{BookOption, NumberOption, PasswordOption};
use crate::outcome::Outcome;
use crate::password::Typed;
use crate::secret::Secret;
use crate::{book, help, memory};
use clap::Args;
use lyra2::Settings;

/// Tell whether a password is that of an account: yes or no
#[derive(Args)]
#[command(after_help = help::paragraphs(&[
    "A key is derived with the account's T, R, C and salt; yes is printed if it is the account's, else no.",
    help::PASSWORD,
    help::YES_OR_NO_STATUS,
]))]
pub struct Check {
    #[command(flatten)]
    book: BookOption,
    #[command(flatten)]
    number: NumberOption,
    #[command(flatten)]
    password: PasswordOption,
}

impl Check {
    pub fn run(self) -> Result<Outcome, Failure> {
        let number = self.number.number;
        let book = book::read(&self.book.book)?;
        let place = book.find(number)?;
        let account = book.account(place).expect("an account was found there");
        let input = Input {
            settings: Settings::from(account.parameters),
            salt: Secret::new(account.salt.to_vec()),
            password: self.password.read(Typed::Once)?,
        };
        let key_length = account.key.len();
        input.ask_cost(key_length)?;
        let mut matrix = memory::matrix(account.parameters)?;
        let checked = input.shown(key_length, |password, _| {
            book.check(password, number, &mut matrix)
        })?;
        Ok(Outcome::yes_or_no(checked.same))
    }
}
