//! `lyra2 walk`: the row that Setup revisits.

use crate::failure::Failure;
use crate::help;
use crate::options::decimal;
use crate::outcome::Outcome;
use clap::Args;

/// Tell which row Setup revisits while it fills another
#[derive(Args)]
#[command(after_help = help::STATUS)]
pub struct Walk {
    /// The number of rows, 3 to 16384
    #[arg(value_name = "R", value_parser = decimal)]
    rows: usize,
    /// The row being filled, 3 to R-1
    #[arg(value_name = "ROW0", value_parser = decimal)]
    row0: usize,
}

impl Walk {
    pub fn run(self) -> Result<Outcome, Failure> {
        let row1 = lyra2::walk(self.rows, self.row0)?;
        Ok(Outcome::result(format!("{row1}\n")))
    }
}
