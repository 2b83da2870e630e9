//! The choice of costs, for a budget in rounds or for one in seconds.

use crate::speed::Speed;
use lyra2::{
    Choice, Lengths, Limits, Mixer, Parameters, Refusal, Settings, COLUMNS, ROWS, TIME_COSTS,
};

/// What a planner asks for, apart from the budget.
pub struct Question {
    /// Lengths of key, password and salt.
    pub lengths: Lengths,
    /// The words that the matrix has at most.
    pub words: usize,
    /// The rounds of a reduced call.
    pub rounds: usize,
    /// The mixer, which changes times alone.
    pub mixer: Mixer,
    /// How many column counts are tried.
    pub tries: usize,
}

impl Question {
    /// The choice for a budget in rounds.
    pub fn choose(&self, budget: u64) -> Result<Choice, Refusal> {
        let limits = Limits {
            words: self.words,
            budget,
            rounds: self.rounds,
            tries: self.tries,
        };
        lyra2::choose(self.lengths, limits)
    }

    /// The rounds that T, R and C spend.
    pub fn spent(&self, parameters: Parameters) -> Result<u64, Refusal> {
        let counts = lyra2::cost(self.lengths, parameters, self.rounds)?;
        Ok(counts.rounds)
    }

    /// The settings of a derivation with T, R and C.
    pub fn settings(&self, parameters: Parameters) -> Settings {
        Settings {
            rounds: self.rounds,
            mixer: self.mixer,
            ..parameters.into()
        }
    }

    /// The rounds of the greatest T, R and C: with a larger budget nothing else is chosen.
    pub fn most_rounds(&self) -> Result<u64, Refusal> {
        self.spent(Parameters {
            time: *TIME_COSTS.end(),
            rows: *ROWS.end(),
            columns: *COLUMNS.end(),
        })
    }

    /// The greatest budget whose choice is expected to take at most so many seconds. A larger budget never has a choice
    /// with fewer cells or rounds, so half of those that are left can be told from one of them.
    pub fn budget(&self, seconds: f64, speed: &Speed) -> Result<u64, Refusal> {
        let (mut within, mut beyond) = (0, self.most_rounds()? + 1);
        while beyond - within > 1 {
            let middle = within + (beyond - within) / 2;
            match self.expected(middle, speed) <= seconds {
                true => within = middle,
                false => beyond = middle,
            }
        }
        Ok(within)
    }

    /// The expected seconds of the choice for a budget; none where nothing fits, so that too short a time comes to the
    /// refusal that says so.
    fn expected(&self, budget: u64, speed: &Speed) -> f64 {
        let choice = self.choose(budget);
        choice.map_or(0.0, |choice| {
            speed.expected(self.settings(choice.parameters))
        })
    }
}
