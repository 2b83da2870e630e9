//! Every T, R and C that fit some limits, found one by one: slow, and meant for small limits.
//!
//! It goes by the words of the matrix and by the cost question alone. It knows no bound on the cells, so that the bound that a
//! choice goes by can be held against what is found.

use crate::choice::{Limits, CHOSEN_TIME_COSTS, SMALLEST_COSTS};
use crate::refusal::{COLUMNS, ROWS};
use std::cmp::Reverse;

/// What a search has found.
#[derive(Clone, Copy, Debug, Default, PartialEq, Eq)]
pub struct Found {
    /// How many triples of T, R and C fit, with whatever number of columns.
    pub triples: u64,
    /// The most cells of any of them.
    pub most_cells: u64,
    /// Of those whose column count may be tried, T, R and C of the one with the most cells, then the fewest columns, then the
    /// greatest T.
    pub best: Option<[u64; 3]>,
}

impl Found {
    /// Takes in a triple that fits.
    fn add(&mut self, [t, r, c]: [u64; 3], tries: u64) {
        self.triples += 1;
        self.most_cells = self.most_cells.max(r * c);
        let key = |[t, r, c]: [u64; 3]| (r * c, Reverse(c), t);
        let is_better = self.best.is_none_or(|best| key(best) < key([t, r, c]));
        if c <= tries && is_better {
            self.best = Some([t, r, c]);
        }
    }
}

/// Whether a derivation with these costs has enough words and spends no more than the budget.
fn fits(limits: &Limits, costs: [u64; 3]) -> bool {
    limits.parameters(costs).matrix_words() <= limits.matrix_words && limits.affords(costs)
}

/// Goes through all triples. A greater T spends more, and more rows take more words and more rounds; so a loop over either
/// ends with the first that does not fit.
pub fn search(limits: &Limits) -> Found {
    let mut found = Found::default();
    let [least, ..] = SMALLEST_COSTS;
    for c in COLUMNS {
        for r in ROWS.take_while(|&r| fits(limits, [least, r, c])) {
            for t in CHOSEN_TIME_COSTS.take_while(|&t| fits(limits, [t, r, c])) {
                found.add([t, r, c], limits.tries);
            }
        }
    }
    found
}
