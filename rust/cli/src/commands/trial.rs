//! `lyra2 trial`: a recorded derivation, left in an end-state file.

use crate::end_state::{write, Header};
use crate::failure::Failure;
use crate::input::{Input, InputOptions};
use crate::options::KeyLengthOption;
use crate::outcome::Outcome;
use crate::password::Typed;
use crate::replacement::Replacement;
use crate::secret::{wipe_stack, zeros};
use crate::{help, memory, progress};
use clap::Args;
use std::path::PathBuf;

/// Run a recorded derivation and write its end state to a file
#[derive(Args)]
#[command(after_help = help::paragraphs(&[
    "The state after the last visit, the used matrix and the used record are written to FILE, in version 3 of its form, and \
     the file's length and checksum are printed. With T = 0 there is no visit: the state is that after Setup, and the record is empty. `lyra2 \
     compare` compares two such files; docs/END-STATES.md describes them.",
    "The file says T, R, C, the rounds of a reduced call, the rotation and the mixer. Both sides of a trial agree on all \
     six beforehand.",
    "Whoever has the file can make the key, and often compute the password: use a password that opens nothing.",
    "The file is written beside FILE, readable for its owner alone, and takes its name once it is whole: a file or a link \
     that is there is then replaced, and stays if anything goes wrong. A folder, a device or a pipe, or a link to one as \
     /dev/stdout is, is refused.",
    help::PASSWORD,
    help::TYPED_TWICE,
    help::STATUS,
]))]
pub struct Trial {
    /// The end-state file
    #[arg(long, value_name = "FILE")]
    output: PathBuf,
    #[command(flatten)]
    key: KeyLengthOption,
    #[command(flatten)]
    input: InputOptions,
}

impl Trial {
    pub fn run(self) -> Result<Outcome, Failure> {
        let input = self.input.read(Typed::Twice)?;
        input.ask_cost(self.key.key_length)?;
        let written = self.derive_and_write(input);
        // The end state lay there.
        wipe_stack();
        let (bytes, sum) = written?;
        Ok(Outcome::result(format!(
            "{bytes} bytes, checksum {sum:016x}\n"
        )))
    }

    /// Returns the file's length and checksum. It is a call of its own, whose part of the stack can be wiped.
    #[inline(never)]
    fn derive_and_write(&self, input: Input) -> Result<(u64, u64), Failure> {
        let (settings, key_length) = (input.settings, self.key.key_length);
        let mut key = zeros(key_length);
        let mut matrix = memory::matrix(settings.parameters)?;
        let mut record = memory::record(settings.parameters)?;
        let of_path = |error| Failure::of_file(&self.output, error);
        // Made before the work, which can take minutes, so that a wrong name is told at once.
        let mut output = Replacement::create(&self.output).map_err(of_path)?;
        let recorded = input.derive_recorded(&mut key, &mut matrix, &mut record)?;
        let header = Header {
            settings,
            key_length,
            counts: recorded.counts,
        };
        drop((key, input));
        let bytes = header.file_bytes();
        let file = progress::by_bytes("writing", bytes).wrap_write(&mut output.file);
        let sum =
            write::write(file, &header, &recorded.state, &matrix, &record).map_err(of_path)?;
        output.put().map_err(of_path)?;
        Ok((bytes, sum))
    }
}
