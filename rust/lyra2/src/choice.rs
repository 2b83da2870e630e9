//! The choice of costs: T, R and C for so much memory and so many rounds.

use crate::parameters::{Lengths, Parameters};
use crate::refusal::Refusal;

/// What a choice of costs keeps to. Words, budget and tries may be any numbers.
#[derive(Clone, Copy, Debug, PartialEq, Eq)]
pub struct Limits {
    /// The words that the matrix has at most, W.
    pub words: usize,
    /// The rounds that a derivation or a check spends at most, B; [`cost`](crate::cost()) tells them for T, R and C.
    pub budget: u64,
    /// The rounds of a reduced call, ρ.
    pub rounds: usize,
    /// How many column counts are tried, N: 1, 2 and so on. From 256 on these are all that there are.
    pub tries: usize,
}

/// The costs that were chosen.
#[derive(Clone, Copy, Debug, PartialEq, Eq)]
pub struct Choice {
    /// T, R and C.
    pub parameters: Parameters,
    /// How many cells more than R·C any others that fit have at most. Others need not have more: it is a bound.
    pub shortfall: usize,
}

/// Chooses T, R and C for keys, passwords and salts of these lengths: as many cells as are found to fit, and then as many
/// visits.
///
/// T, R and C fit if they are allowed, T is at least 1, the matrix has at most [`Limits::words`] words, and at most
/// [`Limits::budget`] rounds are spent. Each of 1 to [`Limits::tries`] columns is tried with the most rows that fit
/// together with T = 1; a number of columns with which nothing fits is passed over. Of what was tried the most cells are
/// taken, of as many the fewest columns, and with them the greatest T that fits.
///
/// It is proved that the answer fits, and that
///
/// - no T, R and C that fit have more than R·C + [`Choice::shortfall`] cells;
/// - with 256 tries or more none that fit have more than R·C, also where the shortfall is not 0.
///
/// Nothing is derived and no memory is taken. Whether a derivation is slow enough for whoever guesses passwords is not
/// asked here; that is for the planner, who sets the limits as high as the gateway and its operators bear.
///
/// Refusals, in the order of the checks: 1, 2, 3, 10, 13, 15, 16.
///
/// ```
/// use lyra2::{choose, cost, Lengths, Limits, Parameters, Refusal, COLUMNS, USUAL_ROUNDS};
///
/// // 6 MiB and a million rounds, for the longest password and salt.
/// let lengths = Lengths { key: 32, password: 1024, salt: 64 };
/// let limits = Limits { words: 786_432, budget: 1_000_000, rounds: USUAL_ROUNDS, tries: *COLUMNS.end() };
/// let choice = choose(lengths, limits)?;
///
/// assert_eq!(choice.parameters, Parameters { time: 14, rows: 16_384, columns: 4 });
/// assert_eq!(choice.shortfall, 0);
/// let counts = cost(lengths, choice.parameters, limits.rounds)?;
/// assert_eq!(counts.rounds, 983_268);
///
/// // With fewer columns to try something may be lost, and the answer says how much at most.
/// let choice = choose(lengths, Limits { tries: 3, ..limits })?;
/// assert_eq!(choice.parameters, Parameters { time: 19, rows: 16_384, columns: 3 });
/// assert_eq!(choice.shortfall, 16_384);
///
/// let refused = choose(lengths, Limits { words: 35, ..limits });
/// assert_eq!(refused, Err(Refusal::NothingFits));
/// # Ok::<(), Refusal>(())
/// ```
pub fn choose(lengths: Lengths, limits: Limits) -> Result<Choice, Refusal> {
    let mut values = [0; 4];
    let number = lyra2_sys::choose(
        lyra2_sys::Limits {
            key: lengths.key,
            password: lengths.password,
            salt: lengths.salt,
            words: limits.words,
            budget: limits.budget,
            rounds: limits.rounds,
            tries: limits.tries,
        },
        &mut values,
    );
    Refusal::accepted(number)?;
    let [time, rows, columns, shortfall] = values;
    Ok(Choice {
        parameters: Parameters {
            time,
            rows,
            columns,
        },
        shortfall,
    })
}
