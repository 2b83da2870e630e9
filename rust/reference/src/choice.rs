//! The choice of costs of request #109: T, R and C for a matrix of so many words and a budget of so many rounds.
//!
//! What is to be the greatest of its kind, R for a column count and T for the answer, is looked for and not worked out by a
//! division, so that a slip in a formula of the product is not made here as well.

use crate::cost::cost;
use crate::input::Parameters;
use crate::refusal::{self, Refusal, COLUMNS, ROWS};
use crate::sponge::{CELL_WORDS, FULL_ROUNDS};
use std::cmp::Reverse;
use std::ops::RangeInclusive;

/// Values of T that may be chosen. T = 0 is accepted elsewhere, but makes no visit.
pub const CHOSEN_TIME_COSTS: RangeInclusive<u64> = 1..=255;

/// The smallest T, R and C that may be chosen; all others take more words or spend more.
pub const SMALLEST_COSTS: [u64; 3] = [*CHOSEN_TIME_COSTS.start(), *ROWS.start(), *COLUMNS.start()];

/// What a choice goes by.
#[derive(Clone, Copy, Debug, PartialEq, Eq)]
pub struct Limits {
    /// Key length in bytes.
    pub key_len: u64,
    /// Password length in bytes.
    pub password_len: u64,
    /// Salt length in bytes.
    pub salt_len: u64,
    /// Words of the matrix, W.
    pub matrix_words: u64,
    /// The most rounds that may be spent, B.
    pub budget: u64,
    /// Rounds of a reduced call, ρ.
    pub rho: u64,
    /// How many column counts may be tried, N.
    pub tries: u64,
}

impl Limits {
    /// The six numbers of the input, with these costs.
    pub fn parameters(&self, [t, r, c]: [u64; 3]) -> Parameters {
        Parameters {
            key_len: self.key_len,
            password_len: self.password_len,
            salt_len: self.salt_len,
            t,
            r,
            c,
        }
    }

    /// Whether the cost question accepts these costs and tells no more rounds than the budget has.
    pub fn affords(&self, costs: [u64; 3]) -> bool {
        let spent = cost(&self.parameters(costs), self.rho);
        spent.is_ok_and(|counts| counts.rounds <= self.budget)
    }
}

/// The costs that are chosen.
#[derive(Clone, Copy, Debug, PartialEq, Eq)]
pub struct Choice {
    /// The time cost T.
    pub t: u64,
    /// The number of rows R.
    pub r: u64,
    /// The number of columns C.
    pub c: u64,
    /// How many cells R·C lacks to U, which nothing that fits can pass.
    pub shortfall: u64,
}

/// Chooses costs: the most cells among the column counts that are tried, then the fewest columns, then the greatest T.
pub fn choose(limits: &Limits) -> Result<Choice, Refusal> {
    refusal::check_limits(limits)?;
    let most = most_cells(limits)?;
    // One column is always tried and needs the fewest cells: where it is passed over, nothing fits.
    best(limits, most).ok_or(Refusal::NothingFits)
}

/// The choice with at most so many cells, unless every column count is passed over.
fn best(limits: &Limits, most: u64) -> Option<Choice> {
    let tried = COLUMNS.take_while(|&c| c <= limits.tries);
    let shapes = tried.filter_map(|c| Some((rows_for(most, c)?, c)));
    let (r, c) = shapes.max_by_key(|&(r, c)| (r * c, Reverse(c)))?;
    let t = greatest(CHOSEN_TIME_COSTS, |t| limits.affords([t, r, c]))?;
    Some(Choice {
        t,
        r,
        c,
        shortfall: most - r * c,
    })
}

/// U, the most cells that words and rounds leave room for if each takes two reduced calls, as it does with T = 1; 0 if the
/// full calls alone spend too much.
fn most_cells(limits: &Limits) -> Result<u64, Refusal> {
    // The full calls are the same for all costs, so that any will do.
    let full = cost(&limits.parameters(SMALLEST_COSTS), limits.rho)?.full;
    let Some(left) = limits.budget.checked_sub(FULL_ROUNDS * full) else {
        return Ok(0);
    };
    let for_words = limits.matrix_words / CELL_WORDS as u64;
    let for_rounds = left / (2 * limits.rho);
    let allowed = ROWS.end() * COLUMNS.end();
    Ok(for_words.min(for_rounds).min(allowed))
}

/// The most rows with which so many columns make no more than so many cells; None if the fewest rows make more already.
fn rows_for(most_cells: u64, c: u64) -> Option<u64> {
    greatest(ROWS, |r| r * c <= most_cells)
}

/// The greatest number of a range that is small enough, where every number below one that is small enough is so too.
fn greatest(range: RangeInclusive<u64>, is_small_enough: impl Fn(u64) -> bool) -> Option<u64> {
    let (mut found, last) = range.into_inner();
    if !is_small_enough(found) {
        return None;
    }
    let mut too_large = last + 1;
    while found + 1 < too_large {
        let middle = (found + too_large) / 2;
        if is_small_enough(middle) {
            found = middle;
        } else {
            too_large = middle;
        }
    }
    Some(found)
}
