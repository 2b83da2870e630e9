//! `lyra2 line`: a login line from a password.

use crate::failure::Failure;
use crate::input::Input;
use crate::options::{CostOptions, FreshSaltOptions, KeyLengthOption, PasswordOption};
use crate::outcome::Outcome;
use crate::password::Typed;
use crate::replacement::Replacement;
use crate::secret::{zeros, Secret};
use crate::{help, line, memory};
use clap::Args;
use std::io::Write;
use std::path::PathBuf;

/// Make a login line from a password, with a random salt
#[derive(Args)]
#[command(after_help = help::paragraphs(&[
    "The line is $lyra2$t=T,r=R,c=C$SALT$KEY and all that `lyra2 login` needs beside the password; docs/LOGIN-LINES.md \
     describes it. It goes with the usual rounds, rotation and mixer of `lyra2 derive`. Whoever has it has the key.",
    "The salt is 16 bytes from the system's random source, or as many as --salt-length says, unless one is given.",
    help::LINE_EXAMPLE,
    "The file of --output is written beside FILE, readable for its owner alone, and takes its name once it is whole, as \
     that of `lyra2 trial`; then nothing is printed.",
    help::PASSWORD,
    help::TYPED_TWICE,
    help::STATUS,
]))]
pub struct Line {
    /// A file for the line, instead of standard output
    #[arg(long, value_name = "FILE")]
    output: Option<PathBuf>,
    #[command(flatten)]
    key: KeyLengthOption,
    #[command(flatten)]
    costs: CostOptions,
    #[command(flatten)]
    salt: FreshSaltOptions,
    #[command(flatten)]
    password: PasswordOption,
}

impl Line {
    pub fn run(self) -> Result<Outcome, Failure> {
        let input = Input {
            settings: self.costs.parameters().into(),
            salt: self.salt.read()?,
            password: self.password.read(Typed::Twice)?,
        };
        input.ask_cost(self.key.key_length)?;
        let Some(path) = &self.output else {
            return Ok(Outcome::secret(self.text(&input)?));
        };
        let of_path = |error| Failure::of_file(path, error);
        // Made before the work, so that a wrong name is told at once.
        let mut output = Replacement::create(path).map_err(of_path)?;
        let text = self.text(&input)?;
        output.file.write_all(&text).map_err(of_path)?;
        output.put().map_err(of_path)?;
        Ok(Outcome::result(""))
    }

    /// The line and its newline.
    fn text(&self, input: &Input) -> Result<Secret, Failure> {
        let mut key = zeros(self.key.key_length);
        let parameters = input.settings.parameters;
        let mut matrix = memory::matrix(parameters)?;
        input.derive(&mut key, &mut matrix)?;
        Ok(line::write(parameters, &input.salt, &key)?)
    }
}
