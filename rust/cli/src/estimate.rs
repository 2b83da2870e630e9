//! How long a derivation takes, told from a small one that is timed on the spot.

use crate::edition::Edition;
use crate::failure::Failure;
use crate::memory;
use crate::timing::{derivation, median, TURNS};
use lyra2::{Counts, Parameters};

/// Cells of the small matrix at most, 6 MiB.
const CELLS: usize = 1 << 16;
/// The small derivation's T at most. Visits take longer than Setup, so a larger T counts.
const TIME: usize = 4;

/// The expected seconds of a derivation that no check refuses. The small one has its rounds, rotation and mixer, or its
/// lanes: how much of a reduced call's time its rounds take depends on the machine.
pub fn seconds(edition: Edition, counts: Counts) -> Result<f64, Failure> {
    let parameters = edition.parameters();
    let parameters = Parameters {
        time: parameters.time.min(TIME),
        rows: edition.rows_up_to(parameters.rows.min(CELLS / parameters.columns.max(1))),
        columns: parameters.columns,
    };
    let mut matrix = memory::matrix(parameters)?;
    let small = edition.with(parameters);
    let mut times = [0.0; TURNS];
    for time in &mut times {
        let (seconds, counts) = derivation(small, &mut matrix)?;
        *time = seconds / counts.reduced as f64;
    }
    Ok(median(times) * counts.reduced as f64)
}
