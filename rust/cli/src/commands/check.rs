//! `lyra2 check`: whether a password gives a stored key.

use crate::failure::Failure;
use crate::help;
use crate::input::LanesInputOptions;
use crate::options::StoredKeyOptions;
use crate::outcome::Outcome;
use crate::password::Typed;
use clap::Args;

/// Tell whether a password gives a stored key: yes or no
#[derive(Args)]
#[command(after_help = help::paragraphs(&[
    "A key as long as the stored one is derived; yes is printed if they are the same, else no.",
    help::SETTINGS,
    help::LANES,
    help::PASSWORD,
    help::YES_OR_NO_STATUS,
]))]
pub struct Check {
    #[command(flatten)]
    key: StoredKeyOptions,
    #[command(flatten)]
    input: LanesInputOptions,
}

impl Check {
    pub fn run(self) -> Result<Outcome, Failure> {
        let stored = self.key.read()?;
        self.input.read(Typed::Once)?.check(&stored)
    }
}
