//! `lyra2 completions`: a script that lets a shell complete the program's arguments.

use crate::help;
use crate::outcome::Outcome;
use clap::{Args, Command};
use clap_complete::{generate, Shell};

/// Print a script that lets a shell complete the arguments
#[derive(Args)]
#[command(after_help = help::STATUS)]
pub struct Completions {
    /// The shell
    #[arg(value_name = "SHELL")]
    shell: Shell,
}

impl Completions {
    /// The script for the program with all its commands.
    pub fn run(self, mut program: Command) -> Outcome {
        let name = program.get_name().to_string();
        let mut script = Vec::new();
        generate(self.shell, &mut program, name, &mut script);
        Outcome::result(script)
    }
}
