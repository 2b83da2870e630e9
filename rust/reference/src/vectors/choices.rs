//! The questions of the vectors file about the choice of costs, group by group.

use super::case::Question;
use super::random::Random;
use super::random_choice;
use super::refused::without_repeats;
use crate::choice::{Limits, SMALLEST_COSTS};
use crate::cost;

/// The cells of the largest matrix.
const ALL_CELLS: u64 = 16_384 * 256;
/// Enough rounds for T = 255 with a thousand cells.
const ENOUGH_ROUNDS: u64 = 10_000_000;

/// Limits that are accepted, which the groups vary: two full calls, 100 cells by the words, and every column count.
const BASE: Limits = Limits {
    key_len: 32,
    password_len: 31,
    salt_len: 8,
    matrix_words: 12 * 100,
    budget: ENOUGH_ROUNDS,
    rho: 1,
    tries: 256,
};

/// The longest key, password and salt, which make the most full calls.
const LONGEST: Limits = Limits {
    key_len: 1024,
    password_len: 1024,
    salt_len: 64,
    ..BASE
};

/// All groups, one after the other.
pub fn questions() -> Vec<Question> {
    let groups = [
        words(),
        budgets(),
        times(),
        largest(),
        tries(),
        most_rows(),
        ties(),
        passed_over(),
        rounds(),
        lengths(),
        wide_numbers(),
        single_refusals(),
        refusals_in_order(),
        random(),
        past_the_most_columns(),
        without_end(),
    ];
    let questions = groups.concat().into_iter();
    without_repeats(
        questions
            .map(|limits| Question::Choose { limits })
            .collect(),
    )
}

/// What so many cells spend with this T.
pub(super) fn spent(limits: &Limits, cells: u64, t: u64) -> u64 {
    let smallest = cost(&limits.parameters(SMALLEST_COSTS), limits.rho);
    12 * smallest.map_or(0, |counts| counts.full) + limits.rho * cells * (t + 1)
}

/// The base with words for so many cells, and rounds enough for each T.
fn with_cells(cells: u64) -> Limits {
    let matrix_words = 12 * cells;
    Limits {
        matrix_words,
        budget: u64::MAX,
        ..BASE
    }
}

fn with_tries(limits: Limits, all: &[u64]) -> Vec<Limits> {
    let with = |&tries| Limits { tries, ..limits };
    all.iter().map(with).collect()
}

/// Words around those of the first cells; 36 are the fewest with which something fits.
fn words() -> Vec<Limits> {
    let around = [2, 3, 4, 5, 6].into_iter();
    let edges = around.flat_map(|cells| 12 * cells - 1..=12 * cells + 1);
    let with = |matrix_words| Limits {
        matrix_words,
        ..BASE
    };
    [0, 1, 12].into_iter().chain(edges).map(with).collect()
}

/// Budgets around the full calls and around those of the first cells with T = 1.
fn budgets() -> Vec<Limits> {
    let mut limits = Vec::new();
    for (base, rho) in [
        (BASE, 1),
        (BASE, 5),
        (BASE, 12),
        (LONGEST, 1),
        (LONGEST, 12),
    ] {
        let base = Limits { rho, ..base };
        let full = spent(&base, 0, 0);
        let cells = [2, 3, 4].into_iter().map(|cells| spent(&base, cells, 1));
        let edges = [full].into_iter().chain(cells).flat_map(|b| b - 1..=b + 1);
        for budget in [0, 1].into_iter().chain(edges) {
            limits.push(Limits { budget, ..base });
        }
    }
    limits
}

/// Budgets that are just enough for some T, and one short of it; 256 is above the greatest.
fn times() -> Vec<Limits> {
    let mut limits = Vec::new();
    for (cells, rho) in [
        (3, 1),
        (3, 12),
        (100, 1),
        (100, 5),
        (ALL_CELLS, 1),
        (ALL_CELLS, 12),
    ] {
        let base = Limits {
            rho,
            ..with_cells(cells)
        };
        for t in [1, 2, 3, 254, 255, 256] {
            let enough = spent(&base, cells, t);
            limits.extend([enough, enough - 1].map(|budget| Limits { budget, ..base }));
        }
    }
    limits
}

/// Words and rounds around those of the largest matrix, and the greatest numbers of both.
fn largest() -> Vec<Limits> {
    let enough = spent(&BASE, ALL_CELLS, 1);
    let words = 12 * ALL_CELLS;
    let mut limits = Vec::new();
    for matrix_words in [
        words - 12,
        words - 1,
        words,
        words + 1,
        words + 12,
        u64::MAX,
    ] {
        for budget in [enough - 1, enough, enough + 1, u64::MAX] {
            limits.push(Limits {
                matrix_words,
                budget,
                ..BASE
            });
        }
    }
    limits
}

/// Numbers of column counts, some of which are none or fewer if cut to 8, 16 or 32 bits.
const TRIES: [u64; 22] = [
    1,
    2,
    3,
    4,
    5,
    7,
    16,
    128,
    254,
    255,
    256,
    257,
    258,
    512,
    65_536,
    65_537,
    1 << 32,
    1 << 32 | 1,
    1 << 32 | 2,
    1 << 63,
    u64::MAX - 1,
    u64::MAX,
];

/// Few cells, where one column does whatever may be tried; each of these numbers with some more cells, where the third or
/// fourth count is the best, and with the most. Last a budget for so many cells with T = 1, of which few columns leave enough
/// for a greater T.
fn tries() -> Vec<Limits> {
    let cells = 16_384 * 3 + 5;
    let by_rounds = Limits {
        matrix_words: u64::MAX,
        budget: spent(&BASE, cells, 1),
        ..BASE
    };
    [
        with_tries(with_cells(100), &[1, 2, 255, 256, 257, u64::MAX]),
        with_tries(with_cells(cells), &TRIES),
        with_tries(with_cells(ALL_CELLS), &TRIES),
        with_tries(by_rounds, &[1, 2, 3, 4, 256]),
    ]
    .concat()
}

/// Cells around multiples of the most rows, which so many columns reach exactly, and fewer do not.
fn most_rows() -> Vec<Limits> {
    let mut limits = Vec::new();
    for columns in [1, 2, 3, 16, 255, 256] {
        for cells in 16_384 * columns - 1..=16_384 * columns + 1 {
            let base = with_cells(cells);
            limits.extend(with_tries(base, &[columns, 256]));
        }
        let exactly = with_cells(16_384 * columns);
        limits.extend(with_tries(exactly, &[(columns - 1).max(1), columns + 1]));
    }
    limits
}

/// Cells that several column counts reach, of which the fewest columns are due. Of the prime numbers of cells above 16,384
/// none is reached, and what comes nearest may be reached more than once too.
fn ties() -> Vec<Limits> {
    let few = [6, 12, 24, 768].into_iter();
    let many = [
        32_771, 32_772, 49_152, 65_536, 65_537, 100_003, 131_071, 720_720, 1_000_003, 1_048_576,
        4_000_037, 4_194_301, 4_194_303,
    ];
    let all = |cells| with_tries(with_cells(cells), &[256, 9]);
    few.chain(many).flat_map(all).collect()
}

/// Cells that are too few for three rows of some column counts.
fn passed_over() -> Vec<Limits> {
    let edges = [2, 3, 100, 255, 256].into_iter();
    let cells = edges.flat_map(|columns| [3 * columns - 1, 3 * columns]);
    cells.map(with_cells).collect()
}

/// Every number of rounds in a reduced call, with a budget that leaves fewer cells than the words and with one that leaves
/// as many.
fn rounds() -> Vec<Limits> {
    let by_rounds = Limits {
        budget: 1_000_000,
        ..with_cells(1_000_000)
    };
    let by_words = Limits {
        budget: spent(&BASE, 100, 99),
        ..BASE
    };
    let each = |limits: Limits| (1..=12).map(move |rho| Limits { rho, ..limits });
    each(by_rounds).chain(each(by_words)).collect()
}

/// Lengths on both sides of a change in the number of full calls, with a budget that is just enough for the smallest costs
/// and with one that is a round short.
fn lengths() -> Vec<Limits> {
    let key = |key_len| Limits { key_len, ..BASE };
    let password = |password_len| Limits {
        password_len,
        ..BASE
    };
    let salt = |salt_len| Limits {
        password_len: 0,
        salt_len,
        ..BASE
    };
    let keys = [1, 95, 96, 97, 192, 193, 960, 961, 1024].map(key);
    let passwords = [0, 1, 31, 32, 33, 95, 96, 1023, 1024].map(password);
    let salts = [8, 9, 39, 40, 41, 64].map(salt);
    let mut limits = Vec::new();
    for given in [&keys[..], &passwords, &salts, &[LONGEST]].concat() {
        let enough = spent(&given, 3, 1);
        limits.extend([enough, enough - 1].map(|budget| Limits { budget, ..given }));
    }
    limits
}

/// Words and budgets that are few if cut to 16 or 32 bits, and the greatest.
fn wide_numbers() -> Vec<Limits> {
    let mut limits = Vec::new();
    for high in [1 << 16, 1 << 32, 1 << 63] {
        for low in [0, 30, 36] {
            let wide = high | low;
            limits.push(Limits {
                matrix_words: wide,
                budget: u64::MAX,
                ..BASE
            });
            limits.push(Limits {
                budget: wide,
                ..BASE
            });
        }
    }
    for rho in [1, 12] {
        for below in 0..=1 {
            limits.push(Limits {
                matrix_words: u64::MAX - below,
                budget: u64::MAX - below,
                rho,
                tries: u64::MAX,
                ..LONGEST
            });
        }
    }
    limits
}

/// One condition at a time, but for 16. Some values would pass if cut to 8, 16 or 32 bits.
fn single_refusals() -> Vec<Limits> {
    let keys = [0, 1025, 1026, 1 << 16 | 32, 1 << 32 | 32, u64::MAX];
    let passwords = [1025, 1026, 1 << 16, 1 << 32, u64::MAX];
    let salts = [0, 1, 7, 65, 66, 1 << 8 | 8, 1 << 16 | 8, 1 << 32 | 8];
    let rounds = [
        0,
        13,
        14,
        24,
        1 << 8 | 1,
        1 << 16 | 1,
        1 << 32,
        1 << 32 | 1,
        u64::MAX,
    ];
    let mut limits = Vec::new();
    limits.extend(keys.map(|key_len| Limits { key_len, ..BASE }));
    limits.extend(passwords.map(|password_len| Limits {
        password_len,
        ..BASE
    }));
    limits.extend(salts.map(|salt_len| Limits { salt_len, ..BASE }));
    limits.extend(rounds.map(|rho| Limits { rho, ..BASE }));
    limits.extend([BASE, LONGEST, with_cells(ALL_CELLS)].map(|base| Limits { tries: 0, ..base }));
    limits
}

/// What a check is about.
#[derive(Clone, Copy, PartialEq, Eq)]
pub(super) enum Condition {
    Key,
    Password,
    Salt,
    Rounds,
    Tries,
    Fit,
}

/// The conditions in the order of their checks.
pub(super) const CONDITIONS: [Condition; 6] = [
    Condition::Key,
    Condition::Password,
    Condition::Salt,
    Condition::Rounds,
    Condition::Tries,
    Condition::Fit,
];

/// Makes a condition hold, in one of two ways where it has two: from below or from above, or by the words or the budget.
pub(super) fn make_hold(limits: &mut Limits, condition: Condition, from_above: bool) {
    let pick = |below, above| if from_above { above } else { below };
    match condition {
        Condition::Key => limits.key_len = pick(0, 1025),
        Condition::Password => limits.password_len = pick(1025, u64::MAX),
        Condition::Salt => limits.salt_len = pick(7, 65),
        Condition::Rounds => limits.rho = pick(0, 13),
        Condition::Tries => limits.tries = 0,
        Condition::Fit if from_above => limits.budget = 23,
        Condition::Fit => limits.matrix_words = 35,
    }
}

/// Each condition alone, with each later one, and with all later ones.
fn refusals_in_order() -> Vec<Limits> {
    let mut limits = Vec::new();
    for (place, first) in CONDITIONS.iter().enumerate() {
        for from_above in [false, true] {
            let mut alone = BASE;
            make_hold(&mut alone, *first, from_above);
            limits.push(alone);
            let mut all = alone;
            for later in &CONDITIONS[place + 1..] {
                for later_from_above in [false, true] {
                    let mut two = alone;
                    make_hold(&mut two, *later, later_from_above);
                    limits.push(two);
                }
                make_hold(&mut all, *later, from_above);
            }
            limits.push(all);
        }
    }
    limits
}

fn random() -> Vec<Limits> {
    let mut random = Random::new(49);
    (0..120)
        .map(|_| random_choice::limits(&mut random))
        .collect()
}

/// Cells that 257 columns would reach, which are never tried, and fewer do not: 15,013 is a prime number.
fn past_the_most_columns() -> Vec<Limits> {
    let all = [255, 256, 257, 258, u64::MAX];
    with_tries(with_cells(257 * 15_013), &all)
}

/// The most words with few rounds, and the most rounds with few words.
fn without_end() -> Vec<Limits> {
    let rounds = [0, 23, 24, 29, 30].map(|budget| Limits {
        matrix_words: u64::MAX,
        budget,
        ..BASE
    });
    let words = [0, 35, 36].map(|matrix_words| Limits {
        matrix_words,
        budget: u64::MAX,
        ..BASE
    });
    [&rounds[..], &words].concat()
}
