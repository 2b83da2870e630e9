//! The password: from a file, from standard input, or typed at a terminal.

use crate::failure::Failure;
use crate::reading::{leave_out_newline, read_file, read_standard_input};
use crate::secret::Secret;
use crate::terminal::Hidden;
use lyra2::PASSWORD_LENGTHS;
use std::io::{self, ErrorKind, IsTerminal};
use std::path::Path;

/// Bytes that are read at most: with one more than a password has, the library refuses the length.
const MOST: usize = *PASSWORD_LENGTHS.end() + 1;

/// How often a password is typed. Nobody sees what is typed, so that a slip would make a key that nobody gets again.
#[derive(Clone, Copy, PartialEq)]
pub enum Typed {
    /// For a key that is there: a slip gives no.
    Once,
    /// For a key that is made.
    Twice,
}

/// Reads the password. A file gives its bytes as they are; of standard input one last newline is left out.
pub fn read(file: Option<&Path>, typed: Typed) -> Result<Secret, Failure> {
    if let Some(path) = file {
        return read_file(path, MOST);
    }
    if io::stdin().is_terminal() {
        return type_in(typed);
    }
    let mut password = read_standard_input(MOST + 1)?;
    leave_out_newline(&mut password);
    Ok(password)
}

/// Nothing that is typed is shown from before the first prompt to after the last.
fn type_in(typed: Typed) -> Result<Secret, Failure> {
    let mut terminal = Hidden::new()?;
    let password = ask(&mut terminal, "Password: ")?;
    if typed == Typed::Twice && *ask(&mut terminal, "The same again: ")? != *password {
        return Err(Failure::usage("two different passwords were typed"));
    }
    Ok(password)
}

fn ask(terminal: &mut Hidden, prompt: &str) -> Result<Secret, Failure> {
    let line = terminal.ask(prompt).map_err(|error| match error.kind() {
        ErrorKind::InvalidData => Failure::usage(
            "what was typed is not UTF-8; other bytes are taken from standard input or --password-file",
        ),
        _ => Failure::from_io("terminal", error),
    })?;
    Ok(Secret::new(line.into_bytes()))
}
