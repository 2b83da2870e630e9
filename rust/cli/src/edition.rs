//! What makes a key: the single sponge with its settings, or several lanes.

use crate::failure::{limits, Failure};
use lyra2::{
    Checked, Counts, Lanes, Lengths, Parameters, Refusal, Settings, LANES_TIME_COSTS, LANE_COUNTS,
    LANE_ROWS_MIN, ROWS,
};

/// What makes a key.
#[derive(Clone, Copy)]
pub enum Edition {
    /// The single sponge.
    Single(Settings),
    /// Several lanes.
    Lanes(Lanes),
}

impl From<Settings> for Edition {
    fn from(settings: Settings) -> Edition {
        Edition::Single(settings)
    }
}

impl Edition {
    /// T, R and C.
    pub fn parameters(self) -> Parameters {
        match self {
            Edition::Single(settings) => settings.parameters,
            Edition::Lanes(lanes) => lanes.parameters,
        }
    }

    /// The same with other T, R and C.
    pub fn with(self, parameters: Parameters) -> Edition {
        match self {
            Edition::Single(settings) => Edition::Single(Settings {
                parameters,
                ..settings
            }),
            Edition::Lanes(lanes) => Edition::Lanes(Lanes {
                parameters,
                ..lanes
            }),
        }
    }

    /// The greatest number of rows up to this one that no check refuses, or the least where all of them are refused.
    pub fn rows_up_to(self, most: usize) -> usize {
        match self {
            Edition::Single(_) => most.max(*ROWS.start()),
            Edition::Lanes(lanes) => {
                let (step, least) = shares(lanes);
                (most - most % step).max(least)
            }
        }
    }

    /// The cost question.
    pub fn cost(self, lengths: Lengths) -> Result<Counts, Failure> {
        let counts = match self {
            Edition::Single(Settings {
                parameters, rounds, ..
            }) => lyra2::cost(lengths, parameters, rounds),
            Edition::Lanes(lanes) => lanes.cost(lengths),
        };
        counts.map_err(|refusal| self.failure(refusal))
    }

    /// The plain derivation.
    pub fn derive(
        self,
        password: &[u8],
        salt: &[u8],
        key: &mut [u8],
        matrix: &mut [u64],
    ) -> Result<Counts, Refusal> {
        match self {
            Edition::Single(settings) => lyra2::derive(password, salt, settings, key, matrix),
            Edition::Lanes(lanes) => lanes.derive(password, salt, key, matrix),
        }
    }

    /// The check.
    pub fn check(
        self,
        password: &[u8],
        salt: &[u8],
        stored: &[u8],
        matrix: &mut [u64],
    ) -> Result<Checked, Refusal> {
        match self {
            Edition::Single(settings) => lyra2::check(password, salt, settings, stored, matrix),
            Edition::Lanes(lanes) => lanes.check(password, salt, stored, matrix),
        }
    }

    /// The failure that a refusal stands for. That of lanes says what they would be accepted with.
    pub fn failure(self, refusal: Refusal) -> Failure {
        match (self, refusal) {
            (Edition::Lanes(_), Refusal::TimeCost) => {
                let words = limits("with --lanes the time cost T must be", LANES_TIME_COSTS);
                Failure::Refused(refusal, words)
            }
            (Edition::Lanes(lanes), Refusal::Lanes) => {
                Failure::Refused(refusal, unshared_rows(lanes))
            }
            _ => refusal.into(),
        }
    }
}

/// What the rows have to be a multiple of, and how many they are at least.
fn shares(lanes: Lanes) -> (usize, usize) {
    (2 * lanes.count, LANE_ROWS_MIN * lanes.count)
}

/// Why lanes are refused, and the numbers of rows nearest to the given one that would not be.
fn unshared_rows(lanes: Lanes) -> String {
    let (count, rows) = (lanes.count, lanes.parameters.rows);
    if !LANE_COUNTS.contains(&count) {
        return limits("the number of lanes P must be", LANE_COUNTS);
    }
    let (step, least) = shares(lanes);
    let below = rows - rows % step;
    let above = (below + step).max(least);
    let nearest = match (below >= least, above <= *ROWS.end()) {
        (true, true) => format!("{below} and {above} are"),
        (true, false) => format!("{below} is"),
        (false, _) => format!("{above} is"),
    };
    format!(
        "with --lanes {count} the number of rows R must be a multiple of {step}, at least {least}; \
         {nearest} nearest to {rows}"
    )
}
