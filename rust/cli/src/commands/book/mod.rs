//! `lyra2 book`: the accounts of a file. Each of its commands stands in a module of its own.

mod add;
mod check;
mod list;
mod remove;

use crate::failure::Failure;
use crate::help;
use crate::outcome::Outcome;
use clap::{Args, Subcommand};

/// Keep accounts in a file: list, add, remove and check them
#[derive(Args)]
#[command(disable_help_subcommand = true, after_help = help::paragraphs(&[
    "A book is a file of accounts. An account has a number, T, R, C, a salt and a key, which is all that a check needs \
     beside the password; docs/ACCOUNT-BOOKS.md describes it. Its keys go with the usual rounds, rotation and mixer of \
     `lyra2 derive`. Whoever has the file has the keys.",
    "`lyra2 help book COMMAND` tells what a command takes.",
    help::BOOK_EXAMPLE,
    "Exit status: 0 for a result or yes, 1 for no, 2 for a refusal or anything that went wrong.",
]))]
pub struct Book {
    #[command(subcommand)]
    command: Command,
}

#[derive(Subcommand)]
enum Command {
    List(list::List),
    Add(add::Add),
    Remove(remove::Remove),
    Check(check::Check),
}

impl Book {
    pub fn run(self) -> Result<Outcome, Failure> {
        match self.command {
            Command::List(list) => list.run(),
            Command::Add(add) => add.run(),
            Command::Remove(remove) => remove.run(),
            Command::Check(check) => check.run(),
        }
    }
}
