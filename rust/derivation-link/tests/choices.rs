//! The choice of costs through the static library: against the second program, and against a search through all T, R and C.
//!
//! The four values of a choice are lent between guards here, and those of a refused one have to be zero.

use derivation_link::guarded::Guarded;
use derivation_link::{limits as library_limits, sizes};
use lyra2_reference::search::search;
use lyra2_reference::vectors::random::Random;
use lyra2_reference::vectors::random_choice;
use lyra2_reference::{choose, Choice, Limits};

const MAX: u64 = u64::MAX;
/// The cells of the largest matrix.
const ALL_CELLS: u64 = 16_384 * 256;

/// Limits with two full calls, and words and rounds for more than the largest matrix.
const AMPLE: Limits = Limits {
    key_len: 32,
    password_len: 31,
    salt_len: 8,
    matrix_words: MAX,
    budget: MAX,
    rho: 1,
    tries: 256,
};

/// Lengths of key, password and salt with the fewest full calls, with some, and with the most.
const LENGTHS: [[u64; 3]; 3] = [[1, 0, 8], [97, 32, 8], [1024, 1024, 64]];

fn with_lengths([key_len, password_len, salt_len]: [u64; 3]) -> Limits {
    Limits {
        key_len,
        password_len,
        salt_len,
        ..AMPLE
    }
}

/// What the library chooses, or the number of its refusal.
fn chosen(limits: &Limits, random: &mut Random) -> Result<Choice, u32> {
    let mut lent = Guarded::random(random, 4, |random| random.word() as usize);
    let values = lent.lent_mut().first_chunk_mut().expect("four are lent");
    let number = lyra2_sys::choose(library_limits(limits), values);
    let values = lent.used("values", 4).expect("nothing beside is written");
    let [t, r, c, shortfall] = [0, 1, 2, 3].map(|place| values[place] as u64);
    if number == 0 {
        return Ok(Choice { t, r, c, shortfall });
    }
    assert_eq!([t, r, c, shortfall], [0; 4], "{limits:?}");
    Err(number)
}

/// The same, once it is found to be the second program's.
#[track_caller]
fn agreed(limits: &Limits, random: &mut Random) -> Result<Choice, u32> {
    let found = chosen(limits, random);
    let due = choose(limits).map_err(|refusal| u32::from(refusal.number()));
    assert_eq!(found, due, "{limits:?}");
    found
}

/// The full calls and the rounds that the library's cost question tells.
fn cost(limits: &Limits, costs: [u64; 3]) -> [u64; 2] {
    let mut counts = [0; 3];
    let given = limits.parameters(costs);
    let number = lyra2_sys::cost(sizes(&given, limits.rho), &mut counts);
    assert_eq!(number, 0, "{limits:?}, {costs:?}");
    [counts[0], counts[2]]
}

/// What so many cells spend with this T.
fn spent(limits: &Limits, cells: u64, t: u64) -> u64 {
    let [full, _] = cost(limits, [1, 3, 1]);
    12 * full + limits.rho * cells * (t + 1)
}

/// U in numbers that are wide enough for every product and may be below zero.
fn most_cells(limits: &Limits) -> u64 {
    let [full, _] = cost(limits, [1, 3, 1]);
    let left = i128::from(limits.budget) - 12 * i128::from(full);
    let for_rounds = left.max(0) / (2 * i128::from(limits.rho));
    let for_words = i128::from(limits.matrix_words) / 12;
    let most = for_words.min(for_rounds).min(ALL_CELLS.into());
    u64::try_from(most).expect("it is no more than the largest matrix has")
}

/// Holds a choice against the search, for limits of which only the last check is in question.
fn bears_out(limits: &Limits, random: &mut Random) {
    let found = search(limits);
    let most = most_cells(limits);
    let answer = agreed(limits, random);
    assert_eq!(answer.is_err(), found.triples == 0, "{limits:?}");
    assert_eq!(answer.is_err(), most < 3, "{limits:?}");
    let Ok(Choice { t, r, c, shortfall }) = answer else {
        assert_eq!(answer, Err(16), "{limits:?}");
        return;
    };
    let cells = r * c;
    assert_eq!(found.best, Some([t, r, c]), "{limits:?}");
    assert_eq!(cells + shortfall, most, "{limits:?}");
    assert!(found.most_cells <= cells + shortfall, "{limits:?}");
    if limits.tries >= 256 {
        assert_eq!(found.most_cells, cells, "{limits:?}");
    }
    assert!(12 * cells <= limits.matrix_words, "{limits:?}");
    assert!(cost(limits, [t, r, c])[1] <= limits.budget, "{limits:?}");
    if t < 255 {
        assert!(cost(limits, [t + 1, r, c])[1] > limits.budget, "{limits:?}");
    }
}

/// Every small number of cells, left by the words or by the rounds, from the first word or round that makes it to the last;
/// where the words leave it, with a budget about some T as well.
fn small_limits(base: Limits, cells: u64) -> Vec<Limits> {
    let mut all = Vec::new();
    for spare in [0, 2 * base.rho - 1] {
        all.push(Limits {
            matrix_words: 12 * (cells + 3),
            budget: spent(&base, cells, 1) + spare,
            ..base
        });
    }
    for (t, spare) in [(1, 0), (2, 11), (7, 5), (255, 0)] {
        let enough = spent(&base, cells, t);
        let matrix_words = 12 * cells + spare;
        all.extend([enough - 1, enough].map(|budget| Limits {
            matrix_words,
            budget,
            ..base
        }));
    }
    all
}

#[test]
fn every_small_number_of_cells_against_the_search() {
    let mut random = Random::new(110);
    let mut cases = 0;
    for lengths in LENGTHS {
        for rho in [1, 2, 7, 12] {
            let base = Limits {
                rho,
                ..with_lengths(lengths)
            };
            for limits in (0..=48).flat_map(|cells| small_limits(base, cells)) {
                for tries in [1, 2, 256, MAX] {
                    bears_out(&Limits { tries, ..limits }, &mut random);
                    cases += 1;
                }
            }
        }
    }
    assert_eq!(cases, 3 * 4 * 49 * 10 * 4);
}

/// A number of cells up to 300, left by words and rounds that have little to do with one another.
#[test]
fn random_small_limits_against_the_search() {
    let mut random = Random::new(111);
    let mut refused = 0;
    for _ in 0..600 {
        let mut limits = random_choice::limits(&mut random);
        let valid = [
            random.between(1, 1024),
            random.between(0, 1024),
            random.between(8, 64),
        ];
        [limits.key_len, limits.password_len, limits.salt_len] = valid;
        limits.rho = random.between(1, 12);
        limits.tries = limits.tries.max(1);
        limits.matrix_words = random.between(0, 12 * 300);
        let [cells, t] = [random.between(0, 300), random.between(1, 60)];
        limits.budget = spent(&limits, cells, t) + random.between(0, 20) - 10;
        bears_out(&limits, &mut random);
        refused += u64::from(choose(&limits).is_err());
    }
    assert!((5..100).contains(&refused), "{refused}");
}

/// Cells that one column cannot have: here the column counts differ in what they reach.
#[test]
fn more_cells_than_rows_against_the_search() {
    let mut random = Random::new(112);
    for cells in [16_383, 16_384, 16_385, 32_767, 32_771, 49_157] {
        for tries in [1, 2, 256] {
            let base = Limits { tries, ..AMPLE };
            let by_words = Limits {
                matrix_words: 12 * cells + 11,
                budget: spent(&base, cells, 2),
                ..base
            };
            let by_rounds = Limits {
                budget: spent(&base, cells, 1) + 1,
                ..base
            };
            bears_out(&by_words, &mut random);
            bears_out(&by_rounds, &mut random);
        }
    }
}

/// A word and a round too few for the most rows and columns; every other pair fits.
#[test]
fn all_but_the_most_cells_against_the_search() {
    let cells = ALL_CELLS - 1;
    let limits = Limits {
        matrix_words: 12 * ALL_CELLS - 1,
        budget: spent(&AMPLE, ALL_CELLS, 1) - 1,
        ..AMPLE
    };
    assert_eq!(most_cells(&limits), cells);
    bears_out(&limits, &mut Random::new(113));
}

/// Numbers around every limit of words, rounds and column counts, and around powers of two that a narrower number ends at.
const NUMBERS: [u64; 24] = [
    0,
    1,
    2,
    23,
    24,
    29,
    30,
    35,
    36,
    255,
    256,
    257,
    65_535,
    65_536,
    12 * ALL_CELLS - 1,
    12 * ALL_CELLS,
    (1 << 32) - 1,
    1 << 32,
    1 << 32 | 36,
    1 << 40,
    (1 << 63) - 1,
    1 << 63,
    MAX - 1,
    MAX,
];

/// The number that is due where the lengths and ρ are within their limits.
fn due_refusal(limits: &Limits) -> Option<u32> {
    if limits.tries == 0 {
        return Some(15);
    }
    (most_cells(limits) < 3).then_some(16)
}

#[test]
fn numbers_of_every_size() {
    let mut random = Random::new(114);
    for matrix_words in NUMBERS {
        for budget in NUMBERS {
            for (place, tries) in NUMBERS.into_iter().enumerate() {
                let limits = Limits {
                    matrix_words,
                    budget,
                    rho: 1 + place as u64 % 12,
                    tries,
                    ..AMPLE
                };
                let refused = agreed(&limits, &mut random).err();
                assert_eq!(refused, due_refusal(&limits), "{limits:?}");
            }
        }
    }
}

/// Every length, with a budget that is just enough for the smallest costs and with one that is a round short.
#[test]
fn every_length() {
    let mut random = Random::new(115);
    let [key_len, password_len, salt_len] = [32, 31, 8];
    let keys = (1..=1024).map(|key_len| [key_len, password_len, salt_len]);
    let passwords = (0..=1024).map(|password_len| [key_len, password_len, salt_len]);
    let salts = (8..=64).map(|salt_len| [key_len, password_len, salt_len]);
    for lengths in keys.chain(passwords).chain(salts) {
        let base = with_lengths(lengths);
        let [_, enough] = cost(&base, [1, 3, 1]);
        let [fits, short] = [enough, enough - 1].map(|budget| Limits { budget, ..base });
        let smallest = Choice {
            t: 1,
            r: 3,
            c: 1,
            shortfall: 0,
        };
        assert_eq!(agreed(&fits, &mut random), Ok(smallest));
        assert_eq!(agreed(&short, &mut random), Err(16));
    }
}

/// Every T with every ρ, from a budget that is just enough and from one that is a round short.
#[test]
fn every_time_cost() {
    let mut random = Random::new(116);
    for rho in 1..=12 {
        for cells in [3, 100, 5 * 16_384, ALL_CELLS] {
            let base = Limits {
                matrix_words: 12 * cells,
                rho,
                ..AMPLE
            };
            for t in 2..=256 {
                let enough = spent(&base, cells, t);
                let [fits, short] = [enough, enough - 1].map(|budget| Limits { budget, ..base });
                let found = [fits, short].map(|limits| agreed(&limits, &mut random).map(|x| x.t));
                assert_eq!(found, [Ok(t.min(255)), Ok(t - 1)], "{base:?}");
            }
        }
    }
}

/// Every number of column counts up to some more than are ever tried, for cells of all sizes.
#[test]
fn every_number_of_tries() {
    let mut random = Random::new(117);
    for tries in 1..=300 {
        for cells in [
            3, 17, 16_385, 32_771, 720_720, 1_000_003, 4_000_037, ALL_CELLS,
        ] {
            let limits = Limits {
                matrix_words: 12 * cells,
                tries,
                ..AMPLE
            };
            let choice = agreed(&limits, &mut random).expect("three cells fit");
            assert!(choice.c <= tries.min(256), "{limits:?}");
            if cells == ALL_CELLS {
                assert_eq!((choice.r, choice.c), (16_384, tries.min(256)));
            }
        }
    }
}

/// Makes the condition with this number hold, in one of two ways.
fn make_hold(limits: &mut Limits, number: u32, high: bool) {
    let pick = |low: u64, above: u64| if high { above } else { low };
    match number {
        1 => limits.key_len = pick(0, 1025),
        2 => limits.password_len = pick(1025, MAX),
        3 => limits.salt_len = pick(0, 7),
        10 => limits.salt_len = pick(65, MAX),
        13 => limits.rho = pick(0, 13),
        15 => limits.tries = 0,
        _ if high => limits.budget = 23,
        _ => limits.matrix_words = 35,
    }
}

/// The checks of the choice, in their order.
const ORDER: [u32; 7] = [1, 2, 3, 10, 13, 15, 16];

#[test]
fn of_several_refusals_the_first_in_the_order_is_returned() {
    let mut random = Random::new(118);
    for set in 1u32..1 << ORDER.len() {
        let places = (0..ORDER.len()).filter(|place| set & (1 << place) != 0);
        let held: Vec<u32> = places.map(|place| ORDER[place]).collect();
        // No salt is both too short and too long.
        if held.contains(&3) && held.contains(&10) {
            continue;
        }
        for high in [false, true] {
            let mut limits = AMPLE;
            held.iter().for_each(|n| make_hold(&mut limits, *n, high));
            assert_eq!(agreed(&limits, &mut random), Err(held[0]), "{held:?}");
        }
    }
}

/// A number outside its limits wherever it stands, of some the low 8, 16 or 32 bits would be accepted.
#[test]
fn numbers_outside_their_limits() {
    let outside = |low: u64| [1 << 16 | low, 1 << 32 | low, 1 << 63 | low, MAX - 1, MAX];
    let key_lens = [&[0, 1025, 1026][..], &outside(32)].concat();
    let password_lens = [&[1025, 1026][..], &outside(31)].concat();
    let salt_lens = [&[65, 66, 1 << 8 | 8][..], &outside(8)].concat();
    let rhos = [&[0, 13, 14, 1 << 8 | 1][..], &outside(1)].concat();
    let keys = key_lens.iter().map(|&key_len| Limits { key_len, ..AMPLE });
    let passwords = password_lens.iter().map(|&password_len| Limits {
        password_len,
        ..AMPLE
    });
    let salts = salt_lens
        .iter()
        .map(|&salt_len| Limits { salt_len, ..AMPLE });
    let rounds = rhos.iter().map(|&rho| Limits { rho, ..AMPLE });
    let mut random = Random::new(119);
    let mut all_refused = |number: u32, all: Vec<Limits>| {
        for limits in all {
            assert_eq!(agreed(&limits, &mut random), Err(number), "{limits:?}");
        }
    };
    all_refused(1, keys.collect());
    all_refused(2, passwords.collect());
    all_refused(10, salts.collect());
    all_refused(13, rounds.collect());
}

#[test]
fn random_limits() {
    let mut random = Random::new(120);
    let mut refused = 0;
    for _ in 0..20_000 {
        let limits = random_choice::limits(&mut random);
        refused += u64::from(agreed(&limits, &mut random).is_err());
    }
    assert!((1_000..10_000).contains(&refused), "{refused}");
}
