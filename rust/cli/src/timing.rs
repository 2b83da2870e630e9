//! Derivations timed on the spot, for whatever tells seconds.

use crate::edition::Edition;
use lyra2::{Counts, Refusal};
use std::time::Instant;

/// How often a derivation is timed; its median counts, so that one disturbance does not.
pub const TURNS: usize = 3;

/// The seconds of a derivation that no check refuses, over a matrix that is there, and its counts. Password and salt
/// change nothing that matters.
pub fn derivation(
    edition: impl Into<Edition>,
    matrix: &mut [u64],
) -> Result<(f64, Counts), Refusal> {
    let edition = edition.into();
    let began = Instant::now();
    let counts = edition.derive(b"", b"saltsalt", &mut [0; 32], matrix)?;
    Ok((began.elapsed().as_secs_f64(), counts))
}

/// The middle one of some times.
pub fn median(mut times: [f64; TURNS]) -> f64 {
    times.sort_by(f64::total_cmp);
    times[TURNS / 2]
}

/// A number of seconds in plain decimal, with about three digits that count.
pub fn in_digits(seconds: f64) -> String {
    let places = (2.0 - seconds.max(1e-9).log10().floor()).clamp(0.0, 9.0);
    format!("{seconds:.*}", places as usize)
}
