//! `lyra2 login`: whether a password is the one that a login line was made from.

use crate::failure::Failure;
use crate::input::Input;
use crate::options::PasswordOption;
use crate::outcome::Outcome;
use crate::password::Typed;
use crate::reading::are_same_file;
use crate::{help, line};
use clap::{ArgGroup, Args};
use lyra2::Settings;
use std::path::PathBuf;

/// Tell whether a password is that of a login line: yes or no
#[derive(Args)]
#[command(
    group = ArgGroup::new("two sources").required(true).multiple(true).args(["line_file", "password_file"]),
    after_help = help::paragraphs(&[
        "The line's file, or standard input where --line-file is not given, holds the line that `lyra2 line` prints and at \
         most one newline. A carriage return before it, a second line or anything else is refused, since nothing follows \
         the key of a line. More than 1 MiB is not read.",
        "A key is derived with the line's T, R, C and salt; yes is printed if it is the line's, else no.",
        help::LINE_EXAMPLE,
        help::PASSWORD,
        "Line and password cannot come from the same file, nor both from standard input.",
        help::YES_OR_NO_STATUS,
    ])
)]
pub struct Login {
    /// A file that holds the line
    #[arg(long, value_name = "FILE")]
    line_file: Option<PathBuf>,
    #[command(flatten)]
    password: PasswordOption,
}

impl Login {
    pub fn run(self) -> Result<Outcome, Failure> {
        let line_file = self.line_file.as_deref();
        if are_same_file([line_file, self.password.password_file.as_deref()])? {
            let words = "the line and the password would come from the same file";
            return Err(Failure::usage(words));
        }
        let line = line::read(line_file)?;
        let input = Input {
            settings: Settings::from(line.parameters),
            salt: line.salt,
            password: self.password.read(Typed::Once)?,
        };
        input.check(&line.key)
    }
}
