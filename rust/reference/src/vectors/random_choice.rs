//! Random questions about the choice of costs: few cells and many, and budgets around those of a T.

use super::case::Question;
use super::choices::{make_hold, spent, CONDITIONS};
use super::random::Random;
use crate::choice::Limits;

/// A choice of costs.
pub fn question(random: &mut Random) -> Question {
    Question::Choose {
        limits: limits(random),
    }
}

/// Limits that are mostly accepted; once in ten times some of their conditions are made to hold.
pub fn limits(random: &mut Random) -> Limits {
    let mut limits = Limits {
        key_len: random.between(1, 1024),
        password_len: random.between(0, 1024),
        salt_len: random.between(8, 64),
        matrix_words: 0,
        budget: 0,
        rho: random.between(1, 12),
        tries: tries(random),
    };
    set_room(random, &mut limits);
    if random.once_in(10) {
        for _ in 0..random.between(1, 3) {
            let condition = random.one_of(&CONDITIONS);
            make_hold(&mut limits, condition, random.once_in(2));
        }
    }
    limits
}

/// How many column counts may be tried: all, a few, or any number.
fn tries(random: &mut Random) -> u64 {
    match random.between(1, 4) {
        1 => random.one_of(&[1, 2, 3, 254, 255, 256, 257, u64::MAX]),
        2 => random.between(1, 20),
        3 => random.between(1, 300),
        _ => (random.word() >> random.between(0, 63)).max(1),
    }
}

/// A number of cells: fewer than fit anything, few, around the most rows, or any up to somewhat more than there can be.
fn cells(random: &mut Random) -> u64 {
    match random.between(1, 6) {
        1 => random.between(0, 8),
        2 => random.between(3, 1_000),
        3 => random.between(3, 40_000),
        4 => 16_384 * random.between(1, 256) + random.between(0, 2),
        _ => random.between(3, 4_500_000),
    }
}

/// Draws words and rounds: for the same number of cells, with a budget just about enough for some T; for two numbers of cells
/// that have nothing to do with one another; or any numbers.
fn set_room(random: &mut Random, limits: &mut Limits) {
    let cells_by_words = cells(random);
    limits.matrix_words = 12 * cells_by_words + random.between(0, 11);
    match random.between(1, 5) {
        1 | 2 => {
            let t = random.mostly(1, 255, 300, 10);
            let enough = spent(limits, cells_by_words, t);
            limits.budget = (enough + random.between(0, 2)).saturating_sub(1);
        }
        3 | 4 => {
            let cells_by_rounds = cells(random);
            let spare = random.between(0, 2 * limits.rho - 1);
            limits.budget = spent(limits, cells_by_rounds, 1) + spare;
        }
        _ => {
            limits.matrix_words = random.word() >> random.between(0, 63);
            limits.budget = random.word() >> random.between(0, 63);
        }
    }
}
