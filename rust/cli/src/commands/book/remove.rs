//! `lyra2 book remove`: a book without an account.

use crate::book::{self, Missing};
use crate::failure::Failure;
use crate::help;
use crate::options::{BookOption, NumberOption};
use crate::outcome::Outcome;
use clap::Args;

/// Remove an account from a book
#[derive(Args)]
#[command(after_help = help::paragraphs(&[
    "The later accounts move up. A book that has no accounts any more is an empty file.",
    help::BOOK_CHANGE,
    help::STATUS,
]))]
pub struct Remove {
    #[command(flatten)]
    book: BookOption,
    #[command(flatten)]
    number: NumberOption,
}

impl Remove {
    pub fn run(self) -> Result<Outcome, Failure> {
        let number = self.number.number;
        book::change(&self.book.book, 0, Missing::Wrong, |book| {
            book.remove(number)
        })?;
        Ok(Outcome::result(format!("account {number} removed\n")))
    }
}
