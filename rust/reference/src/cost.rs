//! The cost questions: the three counts by formula, with no key derived.

use crate::input::{Parameters, BLOCK_BYTES, NUMBER_BYTES};
use crate::refusal::{self, Refusal};
use crate::settings::Settings;
use crate::sponge::{Counts, CELL_WORDS, FULL_ROUNDS};

/// What a derivation with these six numbers and ρ rounds in a reduced call spends.
pub fn cost(given: &Parameters, rho: u64) -> Result<Counts, Refusal> {
    refusal::check_cost(given, rho)?;
    Ok(spent(given, rho, 1, 6))
}

/// What a derivation with these six numbers and p lanes spends.
pub fn lanes_cost(given: &Parameters, p: u64) -> Result<Counts, Refusal> {
    refusal::check_lanes_cost(given, p)?;
    Ok(spent(given, Settings::USUAL.rho, p, 8))
}

/// What so many sponges spend together, each with an input that closes with so many numbers and with a key of its own.
fn spent(given: &Parameters, rho: u64, sponges: u64, numbers: u64) -> Counts {
    let unpadded = given.password_len + given.salt_len + NUMBER_BYTES * numbers;
    let blocks = unpadded / BLOCK_BYTES as u64 + 1;
    let pieces = given.key_len.div_ceil(8 * CELL_WORDS as u64);
    let full = sponges * (blocks + pieces);
    let reduced = given.r * given.c * (given.t + 1);
    let rounds = FULL_ROUNDS * full + rho * reduced;
    Counts {
        full,
        reduced,
        rounds,
    }
}
