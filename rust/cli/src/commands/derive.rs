//! `lyra2 derive`: a key from a password.

use crate::failure::Failure;
use crate::input::LanesInputOptions;
use crate::options::KeyLengthOption;
use crate::outcome::Outcome;
use crate::password::Typed;
use crate::secret::zeros;
use crate::{help, hex, memory};
use clap::Args;

/// Derive a key from a password and print it in hexadecimal
#[derive(Args)]
#[command(after_help = help::paragraphs(&[
    "The key is printed as one line of hexadecimal digits in lower case.",
    help::SETTINGS,
    help::LANES,
    help::PASSWORD,
    help::TYPED_TWICE,
    help::STATUS,
]))]
pub struct Derive {
    #[command(flatten)]
    key: KeyLengthOption,
    #[command(flatten)]
    input: LanesInputOptions,
}

impl Derive {
    pub fn run(self) -> Result<Outcome, Failure> {
        let input = self.input.read(Typed::Twice)?;
        input.ask_cost(self.key.key_length)?;
        let mut key = zeros(self.key.key_length);
        let mut matrix = memory::matrix(input.settings.parameters())?;
        input.derive(&mut key, &mut matrix)?;
        Ok(Outcome::secret(hex::line(&key)))
    }
}
