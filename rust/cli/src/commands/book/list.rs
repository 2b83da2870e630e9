//! `lyra2 book list`: the accounts of a book.

use crate::failure::Failure;
use crate::options::BookOption;
use crate::outcome::Outcome;
use crate::{book, help};
use clap::Args;
use lyra2::Account;

/// Print the accounts of a book, without salts and keys
#[derive(Args)]
#[command(after_help = help::paragraphs(&[
    "A line is printed for each account, in their order: its number, T, R, C, and the lengths of salt and key. A book \
     without accounts prints none.",
    help::STATUS,
]))]
pub struct List {
    #[command(flatten)]
    book: BookOption,
}

impl List {
    pub fn run(self) -> Result<Outcome, Failure> {
        let book = book::read(&self.book.book)?;
        book.require_good()?;
        let lines = book.accounts().map(|(_, account)| line(account));
        Ok(Outcome::result(lines.collect::<String>()))
    }
}

fn line(account: Account) -> String {
    let costs = account.parameters;
    format!(
        "account {}: time {}, rows {}, columns {}, salt {} bytes, key {} bytes\n",
        account.number,
        costs.time,
        costs.rows,
        costs.columns,
        account.salt.len(),
        account.key.len(),
    )
}
