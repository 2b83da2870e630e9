//! How fast derivations are that would be chosen for some seconds, measured on the spot.
//!
//! A round over a matrix beyond the caches takes longer than one within them, and so do pages that are fetched for the
//! first time. So what is timed has the shape of what would be chosen, and brings its own matrix. What a matrix costs once
//! and what its visits cost is told apart, since T is mostly chosen larger than there is time to measure.

use crate::choice::Question;
use crate::failure::Failure;
use crate::memory;
use crate::timing::{derivation, median, TURNS};
use lyra2::{Memory, Parameters, Settings};
use std::ops::RangeInclusive;
use std::time::{Duration, Instant};

/// The budget of the first derivation, which takes some milliseconds.
const FIRST_BUDGET: u64 = 100_000;
/// How much longer than the one before a derivation is expected to take at most, since a short one tells little of a long one.
const GROWTH: f64 = 8.0;
/// The seconds that a derivation is expected to take at most.
const LONGEST: f64 = 0.1;
/// Which parts of the time that is aimed at are near enough.
const NEAR: RangeInclusive<f64> = 0.7..=1.3;
/// After this no other derivation is tried, so that all take about a second at most.
const ENOUGH: Duration = Duration::from_millis(400);
/// Words of the smallest page.
const PAGE_WORDS: usize = 512;
/// The part of a derivation that visits take at least, whatever disturbs the turns: they make half of its reduced calls
/// or more.
const LEAST_VISITS: f64 = 0.25;

/// What a derivation takes.
pub struct Speed {
    /// Bytes of the matrix that was timed.
    pub matrix_bytes: usize,
    /// Seconds of a cell without its visits: to set it aside and fill it, and in the end to wipe it and give it back.
    cell: f64,
    /// Seconds of a round of the visits.
    round: f64,
}

impl Speed {
    /// The rounds of visits in a second.
    pub fn rounds_a_second(&self) -> f64 {
        1.0 / self.round
    }

    /// The expected seconds of a derivation without its visits, its memory counted.
    pub fn expected_without_visits(&self, parameters: Parameters) -> f64 {
        self.cell * cells(parameters)
    }

    /// The expected seconds of a derivation, its memory counted. Full calls are too few to matter.
    pub fn expected(&self, settings: Settings) -> f64 {
        let parameters = settings.parameters;
        let calls = cells(parameters) * parameters.time as f64;
        self.expected_without_visits(parameters) + self.round * calls * settings.rounds as f64
    }

    /// Requires that the matrix of T, R and C can be had, where a smaller one was timed.
    pub fn require_memory(&self, parameters: Parameters) -> Result<(), Failure> {
        match matrix_bytes(parameters) > self.matrix_bytes {
            true => memory::require_matrix(parameters),
            false => Ok(()),
        }
    }
}

/// Times derivations that are chosen for longer and longer times, up to the given one or the longest.
pub fn measure(question: &Question, seconds: f64) -> Result<Speed, Failure> {
    let (began, aim) = (Instant::now(), seconds.min(LONGEST));
    let mut chosen = question.choose(FIRST_BUDGET)?.parameters;
    let mut speed = speed_of(question.settings(chosen))?;
    while began.elapsed() < ENOUGH {
        let taken = speed.expected(question.settings(chosen));
        if NEAR.contains(&(taken / aim)) {
            break;
        }
        let budget = question.budget(aim.min(GROWTH * taken), &speed)?;
        match question.choose(budget) {
            Ok(next) if next.parameters != chosen => chosen = next.parameters,
            // There is nothing longer to choose, or nothing as short.
            _ => break,
        }
        speed = speed_of(question.settings(chosen))?;
    }
    Ok(speed)
}

/// The medians of some turns.
fn speed_of(settings: Settings) -> Result<Speed, Failure> {
    let (mut setups, mut wholes) = ([0.0; TURNS], [0.0; TURNS]);
    for (setup, whole) in setups.iter_mut().zip(&mut wholes) {
        (*setup, *whole) = turn(settings)?;
    }
    let (setup, whole) = (median(setups), median(wholes));
    let visits = (whole - setup).max(whole * LEAST_VISITS);
    let parameters = settings.parameters;
    let rounds = cells(parameters) * (parameters.time * settings.rounds) as f64;
    Ok(Speed {
        matrix_bytes: matrix_bytes(parameters),
        cell: (whole - visits) / cells(parameters),
        round: visits / rounds,
    })
}

/// The seconds of a derivation with a matrix of its own: without its visits, and with them.
fn turn(settings: Settings) -> Result<(f64, f64), Failure> {
    let setup = Settings {
        parameters: Parameters {
            time: 0,
            ..settings.parameters
        },
        ..settings
    };
    let began = Instant::now();
    let mut matrix = memory::matrix(settings.parameters)?;
    fetch(&mut matrix);
    let fetched = began.elapsed();
    let (setup, _) = derivation(setup, &mut matrix)?;
    let (whole, _) = derivation(settings, &mut matrix)?;
    let ended = Instant::now();
    drop(matrix);
    let aside = (fetched + ended.elapsed()).as_secs_f64();
    Ok((aside + setup, aside + whole))
}

/// Writes to every page, since the system fetches a page that is not locked at its first use, which would then be Setup's.
fn fetch(matrix: &mut Memory) {
    for word in matrix.iter_mut().step_by(PAGE_WORDS) {
        *word = 1;
    }
}

/// Cells of the matrix.
fn cells(parameters: Parameters) -> f64 {
    parameters.rows as f64 * parameters.columns as f64
}

/// Bytes of the matrix of T, R and C that no check refuses.
pub fn matrix_bytes(parameters: Parameters) -> usize {
    8 * parameters.matrix_words().unwrap_or(0)
}
