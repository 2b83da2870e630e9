//! The choice of costs against the cost question: what fits, what is promised of the answer, and what is refused.

use lyra2::{
    choose, cost, Choice, Lengths, Limits, Parameters, Refusal, COLUMNS, ROUNDS, ROWS, TIME_COSTS,
};
use std::ops::RangeInclusive;

const LENGTHS: Lengths = Lengths {
    key: 32,
    password: 31,
    salt: 8,
};
/// The rounds of the full calls that these lengths need, two of them.
const FULL_ROUNDS: u64 = 24;
/// Every number of columns.
const ALL: usize = *COLUMNS.end();

/// Limits of many sizes: the memory is short, the rounds are, or both, or there are more cells than rows.
fn many_limits() -> Vec<Limits> {
    let mut all = Vec::new();
    for cells in [2, 3, 4, 100, 811, 16_385, 40_000, 104_729, 1 << 22, 1 << 40] {
        for budget in [29, 30, 100, 1601, 32_793, 104_753, 1_000_000, 1 << 60] {
            for (rounds, tries) in [(1, 1), (1, 2), (1, 7), (2, 256), (1, 300), (12, 256)] {
                all.push(Limits {
                    words: 12 * cells + cells % 12,
                    budget,
                    rounds,
                    tries,
                });
            }
        }
    }
    all
}

fn of(time: usize, rows: usize, columns: usize) -> Parameters {
    Parameters {
        time,
        rows,
        columns,
    }
}

fn cells(parameters: Parameters) -> usize {
    parameters.rows * parameters.columns
}

/// Whether T, R and C are allowed, T is at least 1 and both limits are kept, as the cost question and the size have it.
fn fits(limits: Limits, parameters: Parameters) -> bool {
    let words = parameters.matrix_words();
    let counts = cost(LENGTHS, parameters, limits.rounds);
    parameters.time >= 1
        && words.is_some_and(|words| words <= limits.words)
        && counts.is_ok_and(|counts| counts.rounds <= limits.budget)
}

/// The greatest number of a range that fits, where all below one that fits do; None where the least does not.
fn greatest(range: RangeInclusive<usize>, fits: impl Fn(usize) -> bool) -> Option<usize> {
    let (least, mut above) = (*range.start(), range.end() + 1);
    let mut found = fits(least).then_some(least)?;
    while above - found > 1 {
        let middle = found + (above - found) / 2;
        match fits(middle) {
            true => found = middle,
            false => above = middle,
        }
    }
    Some(found)
}

/// What is due, found by asking for the cost of one triple after another.
fn due(limits: Limits) -> Option<Parameters> {
    let mut best: Option<Parameters> = None;
    for columns in 1..=limits.tries.min(ALL) {
        let rows = greatest(ROWS, |rows| fits(limits, of(1, rows, columns)));
        let tried = rows.map(|rows| of(1, rows, columns));
        if tried.map(cells) > best.map(cells) {
            best = tried;
        }
    }
    let Parameters { rows, columns, .. } = best?;
    let time = greatest(1..=*TIME_COSTS.end(), |time| {
        fits(limits, of(time, rows, columns))
    });
    time.map(|time| of(time, rows, columns))
}

#[test]
fn the_answer_is_the_best_of_what_is_tried() {
    let (mut accepted, mut refused) = (0, 0);
    for limits in many_limits() {
        let found = choose(LENGTHS, limits).map(|choice| choice.parameters);
        assert_eq!(found, due(limits).ok_or(Refusal::NothingFits), "{limits:?}");
        accepted += usize::from(found.is_ok());
        refused += usize::from(found.is_err());
    }
    assert!(accepted > 200 && refused > 50, "{accepted}, {refused}");
}

/// It fits, one more for T does not, and no others that fit have more cells than it says.
#[test]
fn what_is_promised_of_the_answer() {
    let (mut worse, mut bounds) = (0, 0);
    for limits in many_limits() {
        let Ok(choice) = choose(LENGTHS, limits) else {
            continue;
        };
        let chosen = choice.parameters;
        assert!(fits(limits, chosen), "{limits:?}");
        let longer = of(chosen.time + 1, chosen.rows, chosen.columns);
        assert!(!fits(limits, longer), "{limits:?}");
        let all = Limits {
            tries: ALL,
            ..limits
        };
        let most = cells(due(all).expect("fewer columns fit"));
        assert!(most <= cells(chosen) + choice.shortfall, "{limits:?}");
        assert!(limits.tries < ALL || most == cells(chosen), "{limits:?}");
        worse += usize::from(most > cells(chosen));
        bounds += usize::from(limits.tries >= ALL && choice.shortfall > 0);
    }
    // Some answers are not the best of all, and some are though their shortfall is not 0.
    assert!(worse > 20 && bounds > 3, "{worse}, {bounds}");
}

/// Cells that both limits have room for, less those that are chosen.
#[test]
fn the_shortfall_by_its_rule() {
    for limits in many_limits() {
        if let Ok(choice) = choose(LENGTHS, limits) {
            let calls = (limits.budget - FULL_ROUNDS) / limits.rounds as u64;
            let room = (limits.words / 12)
                .min(calls as usize / 2)
                .min(16_384 * 256);
            assert_eq!(
                choice.shortfall,
                room - cells(choice.parameters),
                "{limits:?}"
            );
        }
    }
}

/// Beyond 16,384 cells one column is too few, and beyond 256 times as many nothing changes any more.
#[test]
fn large_limits() {
    let choose = |words, budget, tries| {
        let limits = Limits {
            words,
            budget,
            rounds: 1,
            tries,
        };
        let choice = choose(LENGTHS, limits).expect("much fits");
        (choice.parameters, choice.shortfall)
    };
    let any = u64::MAX;
    assert_eq!(choose(12 * 16_384, any, 1), (of(255, 16_384, 1), 0));
    assert_eq!(choose(12 * 16_385, any, 1), (of(255, 16_384, 1), 1));
    assert_eq!(choose(12 * 16_385, any, ALL), (of(255, 3277, 5), 0));
    assert_eq!(choose(12 * 40_000, any, 2), (of(255, 16_384, 2), 7232));
    assert_eq!(choose(12 * 40_000, any, ALL), (of(255, 10_000, 4), 0));
    let largest = 16_384 * ALL;
    assert_eq!(
        choose(12 * largest - 1, any, ALL),
        (of(255, 16_383, ALL), 255)
    );
    for (words, tries) in [
        (12 * largest, ALL),
        (12 * largest + 1, ALL),
        (usize::MAX, ALL + 1),
        (usize::MAX, usize::MAX),
    ] {
        let all = (of(255, 16_384, ALL), 0);
        assert_eq!(choose(words, any, tries), all);
        // The greatest T to the round.
        let whole = FULL_ROUNDS + 256 * largest as u64;
        assert_eq!(choose(words, whole, tries), all);
        let less = (of(254, 16_384, ALL), 0);
        assert_eq!(choose(words, whole - 1, tries), less);
    }
}

#[test]
fn the_least_that_fits_and_one_less() {
    for rounds in ROUNDS {
        let least = Limits {
            words: 36,
            budget: FULL_ROUNDS + 6 * rounds as u64,
            rounds,
            tries: 1,
        };
        let choice = Choice {
            parameters: of(1, 3, 1),
            shortfall: 0,
        };
        assert_eq!(choose(LENGTHS, least), Ok(choice));
        let (words, budget) = (least.words, least.budget);
        for (words, budget) in [(words - 1, budget), (words, budget - 1), (0, 0)] {
            let limits = Limits {
                words,
                budget,
                ..least
            };
            assert_eq!(choose(LENGTHS, limits), Err(Refusal::NothingFits));
        }
    }
}

const RIGHT: Limits = Limits {
    words: 36,
    budget: 1000,
    rounds: 1,
    tries: 1,
};

/// A refusal, and a change to a call that brings it about.
type Wrong = (Refusal, fn(&mut Lengths, &mut Limits));

/// In the order of the checks.
const WRONG: [Wrong; 7] = [
    (Refusal::KeyLength, |lengths, _| lengths.key = 0),
    (Refusal::PasswordLength, |lengths, _| {
        lengths.password = 1025
    }),
    (Refusal::SaltTooShort, |lengths, _| lengths.salt = 7),
    (Refusal::SaltTooLong, |lengths, _| lengths.salt = 65),
    (Refusal::Rounds, |_, limits| limits.rounds = 13),
    (Refusal::Tries, |_, limits| limits.tries = 0),
    (Refusal::NothingFits, |_, limits| limits.words = 35),
];

/// Of every set of wrong numbers the first in the order is told.
#[test]
fn the_first_refusal_is_told() {
    for set in 0..1_u32 << WRONG.len() {
        let (mut lengths, mut limits) = (LENGTHS, RIGHT);
        let mut due = None;
        // From the last on: no salt is too short and too long, so the change that comes later holds.
        for (place, (refusal, change)) in WRONG.into_iter().enumerate().rev() {
            if set >> place & 1 == 1 {
                change(&mut lengths, &mut limits);
                due = Some(refusal);
            }
        }
        assert_eq!(choose(lengths, limits).err(), due, "{set:b}");
    }
}
