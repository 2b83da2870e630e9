//! The choice of costs and the search through all costs: worked cases, and the one against the other.

use lyra2_reference::refusal::CHOICE_CHECKS;
use lyra2_reference::search::{search, Found};
use lyra2_reference::vectors::random::Random;
use lyra2_reference::{choose, cost, Choice, Limits, Refusal};

const MAX: u64 = u64::MAX;

/// Two full calls, which spend 24 rounds; words and rounds for more than the largest matrix, and every column count.
const AMPLE: Limits = Limits {
    key_len: 32,
    password_len: 31,
    salt_len: 8,
    matrix_words: MAX,
    budget: MAX,
    rho: 1,
    tries: 256,
};

/// What is chosen with these words, rounds and column counts: T, R, C and the shortfall.
fn chosen(matrix_words: u64, budget: u64, tries: u64) -> Result<[u64; 4], Refusal> {
    let limits = Limits {
        matrix_words,
        budget,
        tries,
        ..AMPLE
    };
    choose(&limits).map(|choice| [choice.t, choice.r, choice.c, choice.shortfall])
}

#[test]
fn the_smallest_costs() {
    assert_eq!(chosen(36, 30, 256), Ok([1, 3, 1, 0]));
    assert_eq!(chosen(35, 30, 256), Err(Refusal::NothingFits));
    assert_eq!(chosen(36, 29, 256), Err(Refusal::NothingFits));
    // Full calls that the budget is not enough for.
    assert_eq!(chosen(MAX, 23, 256), Err(Refusal::NothingFits));
    assert_eq!(chosen(0, 0, 0), Err(Refusal::Tries));
}

#[test]
fn the_largest_costs() {
    let cells = 16_384 * 256;
    assert_eq!(chosen(MAX, MAX, MAX), Ok([255, 16_384, 256, 0]));
    assert_eq!(chosen(12 * cells, MAX, 256), Ok([255, 16_384, 256, 0]));
    assert_eq!(chosen(12 * cells, MAX, 255), Ok([255, 16_384, 255, 16_384]));
    assert_eq!(
        chosen(12 * cells - 1, MAX, 256),
        Ok([255, 16_383, 256, 255])
    );
    assert_eq!(chosen(MAX, 24 + 2 * cells, 256), Ok([1, 16_384, 256, 0]));
    assert_eq!(chosen(MAX, 23 + 2 * cells, 256), Ok([1, 16_383, 256, 255]));
}

/// 65,536 cells of 6 MiB: four columns are the fewest that reach them. A million rounds are 15 times as many and some.
#[test]
fn costs_of_a_gateway() {
    let words = 12 * 65_536;
    assert_eq!(chosen(words, 1_000_000, 256), Ok([14, 16_384, 4, 0]));
    assert_eq!(chosen(words, 24 + 16 * 65_536, 256), Ok([15, 16_384, 4, 0]));
    assert_eq!(chosen(words, 23 + 16 * 65_536, 256), Ok([14, 16_384, 4, 0]));
    assert_eq!(chosen(words, 1_000_000, 3), Ok([19, 16_384, 3, 16_384]));
    assert_eq!(chosen(words, 1_000_000, 1), Ok([60, 16_384, 1, 49_152]));
    // Fewer rounds than words: 49,988 cells, which 4 columns of 12,497 rows reach.
    assert_eq!(chosen(words, 100_000, 256), Ok([1, 12_497, 4, 0]));
}

/// Eight triples of at most 36 rounds: T up to 3 with three cells, up to 2 with four, 1 with five, and 1 with either shape of
/// six.
#[test]
fn a_search_by_hand() {
    let limits = Limits {
        matrix_words: 72,
        budget: 36,
        ..AMPLE
    };
    let due = Found {
        triples: 3 + 2 + 1 + 1 + 1,
        most_cells: 6,
        best: Some([1, 6, 1]),
    };
    assert_eq!(search(&limits), due);
    // A word fewer leaves five cells, which one column has.
    let fewer = Limits {
        matrix_words: 71,
        ..limits
    };
    let due = Found {
        triples: 3 + 2 + 1,
        most_cells: 5,
        best: Some([1, 5, 1]),
    };
    assert_eq!(search(&fewer), due);
    let nothing = Limits {
        budget: 29,
        ..limits
    };
    assert_eq!(search(&nothing), Found::default());
}

/// The search finds the triples of every column count, and takes the best of those that may be tried.
#[test]
fn a_search_with_few_column_counts() {
    let limits = Limits {
        matrix_words: 12 * 16_385,
        budget: 24 + 2 * 16_385,
        tries: 4,
        ..AMPLE
    };
    let found = search(&limits);
    assert_eq!(found.most_cells, 16_385);
    assert_eq!(found.best, Some([1, 16_384, 1]));
    let five = search(&Limits { tries: 5, ..limits });
    assert_eq!((five.most_cells, five.triples), (16_385, found.triples));
    assert_eq!(five.best, Some([1, 3_277, 5]));
}

/// Lengths and ρ that are refused fit nothing.
#[test]
fn a_search_within_refused_limits() {
    for limits in [
        Limits {
            key_len: 0,
            ..AMPLE
        },
        Limits {
            password_len: MAX,
            ..AMPLE
        },
        Limits {
            salt_len: 65,
            ..AMPLE
        },
        Limits { rho: 0, ..AMPLE },
    ] {
        assert_eq!(search(&limits), Found::default());
    }
}

/// Few cells, which words or rounds leave; the search finds what is chosen, and nothing that passes it and its shortfall.
#[test]
fn choices_are_what_the_search_finds() {
    let mut random = Random::new(50);
    let mut refused = 0;
    for _ in 0..500 {
        let mut limits = Limits {
            key_len: random.between(1, 1024),
            password_len: random.between(0, 1024),
            salt_len: random.between(8, 64),
            matrix_words: random.between(0, 1_500),
            rho: random.between(1, 12),
            tries: random.between(1, 6),
            ..AMPLE
        };
        let smallest = cost(&limits.parameters([1, 3, 1]), limits.rho).expect("no check refuses");
        let cells = random.between(1, 3_000);
        limits.budget = smallest.rounds + limits.rho * cells - 5;
        let found = search(&limits);
        let Ok(Choice { t, r, c, shortfall }) = choose(&limits) else {
            assert_eq!(found, Found::default(), "{limits:?}");
            refused += 1;
            continue;
        };
        assert_eq!(found.best, Some([t, r, c]), "{limits:?}");
        assert!(found.most_cells <= r * c + shortfall, "{limits:?}");
    }
    assert!((5..100).contains(&refused), "{refused}");
}

/// Makes the condition of a check hold by one of two values.
fn make_hold(limits: &mut Limits, check: Refusal, high: bool) {
    let pick = |low: u64, above: u64| if high { above } else { low };
    match check {
        Refusal::KeyLength => limits.key_len = pick(0, 1025),
        Refusal::PasswordLength => limits.password_len = pick(1025, MAX),
        Refusal::SaltTooShort => limits.salt_len = pick(0, 7),
        Refusal::SaltTooLong => limits.salt_len = pick(65, MAX),
        Refusal::Rounds => limits.rho = pick(0, 13),
        Refusal::Tries => limits.tries = 0,
        Refusal::NothingFits if high => limits.budget = 23,
        Refusal::NothingFits => limits.matrix_words = 35,
        other => panic!("{other:?} is no check of a choice"),
    }
}

#[test]
fn the_first_of_any_set_of_conditions_is_returned() {
    for set in 1u32..1 << CHOICE_CHECKS.len() {
        let in_set = |place: &usize| set >> place & 1 == 1;
        let places = (0..CHOICE_CHECKS.len()).filter(in_set);
        let held: Vec<_> = places.map(|place| CHOICE_CHECKS[place]).collect();
        // No salt is too short and too long.
        if held.contains(&Refusal::SaltTooShort) && held.contains(&Refusal::SaltTooLong) {
            continue;
        }
        for high in [false, true] {
            let mut limits = AMPLE;
            for check in &held {
                make_hold(&mut limits, *check, high);
            }
            assert_eq!(choose(&limits), Err(held[0]), "{limits:?}");
        }
    }
}

/// The greatest numbers are within no limits but those of words, rounds and column counts.
#[test]
fn limits_that_are_accepted() {
    for (key_len, password_len, salt_len) in [(1, 0, 8), (1024, 1024, 64)] {
        for rho in [1, 12] {
            for tries in [1, MAX] {
                let limits = Limits {
                    key_len,
                    password_len,
                    salt_len,
                    rho,
                    tries,
                    ..AMPLE
                };
                assert!(choose(&limits).is_ok(), "{limits:?}");
            }
        }
    }
    let greatest = Limits {
        key_len: MAX,
        password_len: MAX,
        salt_len: MAX,
        rho: MAX,
        tries: MAX,
        ..AMPLE
    };
    assert_eq!(choose(&greatest), Err(Refusal::KeyLength));
}
