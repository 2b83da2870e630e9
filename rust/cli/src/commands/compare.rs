//! `lyra2 compare`: where two end-state files part.

use crate::end_state::compare::compare;
use crate::failure::Failure;
use crate::help;
use crate::outcome::Outcome;
use clap::Args;
use std::path::PathBuf;

/// Tell whether two end-state files are equal, or where they part
#[derive(Args)]
#[command(after_help = help::paragraphs(&[
    "Printed is equal, or the first place where two end-state files part and then a line for each part of them: the \
     header, the state, the matrix and the record. A part that differs is told by its first difference, with the value of \
     FILE1 before that of FILE2. In the header rho is the rounds of a reduced call, omega the rotation, and the mixer \
     plain or blamka. Visits, rows, columns and words are counted from 0.",
    "Files of versions 1 to 3 are compared by what they say, each with any other: neither the version is a part of that \
     nor the form of the record, which since version 3 has two numbers in a word.",
    "The first place is first in time: the header, then the record, which the walk writes on its way, then the state and \
     the matrix, which it leaves. Where T, R or C differ, matrix and record are not compared. Where T is 0 both records are \
     empty, and equal.",
    "docs/ACCEPTANCE.md says what equal end states settle, and docs/END-STATES.md describes the files.",
    "Exit status: 0 for equal, 1 for different, 2 for a file that cannot be read or is damaged.",
]))]
pub struct Compare {
    /// An end-state file
    #[arg(value_name = "FILE1")]
    first: PathBuf,
    /// The one that it is compared with
    #[arg(value_name = "FILE2")]
    second: PathBuf,
}

impl Compare {
    pub fn run(self) -> Result<Outcome, Failure> {
        let comparison = compare(&self.first, &self.second)?;
        Ok(Outcome::answer(
            comparison.is_equal(),
            comparison.to_string(),
        ))
    }
}
