//! What clap says of arguments that it turns down, in one line that repeats no operand and no value of text.

use crate::failure::Failure;
use clap::error::{ContextKind, ContextValue, ErrorKind};
use clap::Command;
use std::error::Error;
use std::ffi::OsString;

/// The option of some commands that leaves no place for the settings.
const LANES: &str = "--lanes";

/// A command, and how it is called.
pub struct Named<'a> {
    /// Its name, after that of the command that it belongs to.
    pub name: String,
    pub command: &'a Command,
}

/// Where the commands are listed that could be meant.
fn list(command: Option<&Named>) -> String {
    match command.filter(|command| command.command.has_subcommands()) {
        Some(command) if command.name != "help" => {
            format!("`lyra2 help {}` lists them", command.name)
        }
        _ => "`lyra2 help` lists them".to_string(),
    }
}

/// The failure that an error of clap stands for, with the arguments that were given and the command that they name.
pub fn failure(error: &clap::Error, arguments: &[OsString], command: Option<&Named>) -> Failure {
    let argument = || argument_name(&text(error, ContextKind::InvalidArg));
    Failure::usage(match error.kind() {
        ErrorKind::DisplayHelpOnMissingArgumentOrSubcommand => {
            format!("no command; {}", list(command))
        }
        ErrorKind::InvalidSubcommand => unknown_command(error, command),
        ErrorKind::UnknownArgument => unknown_argument(error, arguments, command),
        ErrorKind::MissingRequiredArgument => missing(error),
        ErrorKind::ArgumentConflict => conflict(error),
        ErrorKind::InvalidValue => invalid_value(error),
        ErrorKind::ValueValidation => match error.source() {
            Some(words) => format!("{}: {words}", argument()),
            None => format!("{}: not a value that it takes", argument()),
        },
        ErrorKind::InvalidUtf8 => "an argument is not UTF-8".to_string(),
        _ => "arguments that are not understood; `lyra2 help COMMAND` tells what it takes"
            .to_string(),
    })
}

/// What is not in the form of a command's name is not repeated either.
fn unknown_command(error: &clap::Error, command: Option<&Named>) -> String {
    let given = text(error, ContextKind::InvalidSubcommand);
    let is_letter = |letter: char| letter.is_ascii_alphabetic();
    let is_name = given.starts_with(is_letter)
        && given
            .chars()
            .all(|letter| is_letter(letter) || letter == '-');
    let name = match is_name {
        true => format!("unknown command {given:?}"),
        false => "unknown command".to_string(),
    };
    match text(error, ContextKind::SuggestedSubcommand).as_str() {
        "" => format!("{name}; {}", list(command)),
        near => format!("{name}; is {near} meant?"),
    }
}

/// An operand is not repeated: it may be a password put in the wrong place. Of an option its name is enough.
fn unknown_argument(
    error: &clap::Error,
    arguments: &[OsString],
    command: Option<&Named>,
) -> String {
    let given = text(error, ContextKind::InvalidArg);
    if given.starts_with('-') && !is_operand(&given, arguments) {
        let name = option_name(&given);
        return match text(error, ContextKind::SuggestedArg).as_str() {
            _ if name == LANES => {
                format!("unknown option {name:?}; derive, check and cost alone have lanes")
            }
            "" => format!("unknown option {name:?}"),
            near => format!("unknown option {name:?}; is {near} meant?"),
        };
    }
    let Some(command) = command else {
        return format!("an argument that is no command; {}", list(None));
    };
    let operands: Vec<String> = command
        .command
        .get_positionals()
        .map(|operand| argument_name(&operand.to_string()))
        .collect();
    let due = match operands[..] {
        [] => "options alone".to_string(),
        _ => operands.join(" "),
    };
    format!("an argument too many; {} takes {due}", command.name)
}

/// The name of an option: clap leaves its value out, but takes letters that are no text for a part of the name.
fn option_name(given: &str) -> String {
    match given.starts_with("--") {
        true => given.to_string(),
        false => given.chars().take(2).collect(),
    }
}

/// Whether an argument stands after `--`, where all are operands.
fn is_operand(given: &str, arguments: &[OsString]) -> bool {
    let mut operands = arguments
        .iter()
        .skip_while(|argument| *argument != "--")
        .skip(1);
    operands.any(|operand| operand.to_string_lossy() == given)
}

fn missing(error: &clap::Error) -> String {
    let names = texts(error, ContextKind::InvalidArg);
    let names: Vec<String> = names.iter().map(|name| argument_name(name)).collect();
    match &names[..] {
        [one] => format!("{one} is missing"),
        [others @ .., last] => format!("{} and {last} are missing", others.join(", ")),
        [] => "an argument is missing".to_string(),
    }
}

fn conflict(error: &clap::Error) -> String {
    let name = argument_name(&text(error, ContextKind::InvalidArg));
    let others = texts(error, ContextKind::PriorArg);
    let other = others.first().map(|other| argument_name(other));
    match other {
        Some(other) if other != name => {
            let both = format!("{name} and {other} are both given");
            match [&*name, &*other].contains(&LANES) {
                true => format!("{both}; lanes go with the usual rounds, rotation and mixer"),
                false => both,
            }
        }
        _ => format!("{name} is given twice"),
    }
}

fn invalid_value(error: &clap::Error) -> String {
    let name = argument_name(&text(error, ContextKind::InvalidArg));
    let valid = texts(error, ContextKind::ValidValue);
    if text(error, ContextKind::InvalidValue).is_empty() {
        format!("{name} has no value")
    } else {
        format!("{name}: one of {} is due", valid.join(", "))
    }
}

/// The name in clap's words for an argument, as `--rows <R>` or `<R>`, or in those for a group of which one is due.
fn argument_name(words: &str) -> String {
    let names = words.split('|').map(|part| {
        let part = part.trim_start_matches(['<', '[']);
        part.split([' ', '>', ']', '=']).next().unwrap_or_default()
    });
    names.collect::<Vec<_>>().join(" or ")
}

/// A text of the error, empty if it has none of this kind.
fn text(error: &clap::Error, kind: ContextKind) -> String {
    texts(error, kind).into_iter().next().unwrap_or_default()
}

fn texts(error: &clap::Error, kind: ContextKind) -> Vec<String> {
    match error.get(kind) {
        Some(ContextValue::String(one)) => vec![one.clone()],
        Some(ContextValue::Strings(all)) => all.clone(),
        _ => Vec::new(),
    }
}
