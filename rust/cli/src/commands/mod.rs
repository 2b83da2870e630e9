//! The list of the commands. Each stands in a module of its own and knows none of the others.

mod book;
mod check;
mod choose;
mod compare;
mod completions;
mod cost;
mod derive;
mod line;
mod login;
mod manual;
mod trial;
mod walk;

use crate::failure::Failure;
use crate::outcome::Outcome;
use crate::usage::{self, Named};
use clap::error::ErrorKind;
use clap::{CommandFactory, FromArgMatches, Parser, Subcommand};
use std::ffi::OsString;

/// Password key derivation with Lyra2.
#[derive(Parser)]
#[command(name = "lyra2", version, after_help = AFTER_HELP)]
struct Program {
    #[command(subcommand)]
    command: Command,
}

const AFTER_HELP: &str = "`lyra2 help COMMAND` tells what a command takes.\n\nExit status: 0 for a result, 1 for the \
answer no or different, 2 for a refusal or anything that went wrong, which one line on standard error tells.";

#[derive(Subcommand)]
enum Command {
    Derive(derive::Derive),
    Check(check::Check),
    Line(line::Line),
    Login(login::Login),
    Book(book::Book),
    Cost(cost::Cost),
    Choose(choose::Choose),
    Walk(walk::Walk),
    Trial(trial::Trial),
    Compare(compare::Compare),
    Completions(completions::Completions),
    Manual(manual::Manual),
}

impl Command {
    fn run(self) -> Result<Outcome, Failure> {
        match self {
            Command::Derive(derive) => derive.run(),
            Command::Check(check) => check.run(),
            Command::Line(line) => line.run(),
            Command::Login(login) => login.run(),
            Command::Book(book) => book.run(),
            Command::Cost(cost) => cost.run(),
            Command::Choose(choose) => choose.run(),
            Command::Walk(walk) => walk.run(),
            Command::Trial(trial) => trial.run(),
            Command::Compare(compare) => compare.run(),
            Command::Completions(completions) => Ok(completions.run(Program::command())),
            Command::Manual(manual) => Ok(manual.run(Program::command())),
        }
    }
}

/// What the arguments ask for, the program's name first. A failure comes with the name of the command it belongs to.
pub fn answer(arguments: &[OsString]) -> Result<Outcome, (Option<String>, Failure)> {
    let mut program = Program::command();
    program.build();
    let command = named(&program, arguments);
    let matches = program.clone().try_get_matches_from(arguments);
    match matches.and_then(|matches| Program::from_arg_matches(&matches)) {
        Ok(program) => program.command.run(),
        Err(error) => match error.kind() {
            ErrorKind::DisplayHelp | ErrorKind::DisplayVersion => {
                Ok(Outcome::result(error.to_string()))
            }
            _ => Err(usage::failure(&error, arguments, command.as_ref())),
        },
    }
    .map_err(|failure| (command.map(|command| command.name), failure))
}

/// The command that the arguments name, or the command of a command. What `help` is about is no command of its own.
fn named<'a>(program: &'a clap::Command, arguments: &[OsString]) -> Option<Named<'a>> {
    let mut names = arguments.iter().skip(1).map_while(|name| name.to_str());
    let command = program.find_subcommand(names.next()?)?;
    let name = command.get_name().to_string();
    let below = names.next().filter(|_| name != "help");
    let below = below.and_then(|name| command.find_subcommand(name));
    Some(match below {
        Some(below) => Named {
            name: format!("{name} {}", below.get_name()),
            command: below,
        },
        None => Named { name, command },
    })
}
