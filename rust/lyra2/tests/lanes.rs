//! Several lanes: the limits, the order of the checks, and what tells their keys apart.

use lyra2::{
    derive, Lanes, Lengths, Parameters, Refusal, COLUMNS, KEY_LENGTHS, LANES_TIME_COSTS,
    LANE_COUNTS, LANE_ROWS_MIN, PASSWORD_LENGTHS, ROWS, SALT_LENGTHS,
};
use std::collections::BTreeSet;
use std::ops::RangeInclusive;

const LENGTHS: Lengths = Lengths {
    key: 32,
    password: 0,
    salt: 8,
};

fn lanes(time: usize, rows: usize, columns: usize, count: usize) -> Lanes {
    let parameters = Parameters {
        time,
        rows,
        columns,
    };
    Lanes { parameters, count }
}

/// The three operations over a matrix of so many words. What a refused call leaves must be what was there, and an accepted
/// one leaves zeros in the used words alone.
fn answers(lanes: Lanes, lengths: Lengths, words: usize) -> [Result<lyra2::Counts, Refusal>; 3] {
    let (password, salt) = (vec![1; lengths.password], vec![2; lengths.salt]);
    let (mut key, mut matrix) = (vec![7; lengths.key], vec![7; words]);
    let cost = lanes.cost(lengths);
    let used = if cost.is_ok() {
        12 * lanes.parameters.rows * lanes.parameters.columns
    } else {
        0
    };
    let derived = lanes.derive(&password, &salt, &mut key, &mut matrix);
    let zeros = if derived.is_ok() { used } else { 0 };
    assert!(matrix[..zeros].iter().all(|&word| word == 0), "{lanes:?}");
    assert!(matrix[zeros..].iter().all(|&word| word == 7), "{lanes:?}");
    if derived.is_err() {
        assert!(key.iter().all(|&byte| byte == 7), "{lanes:?}");
    }
    matrix.fill(7);
    let checked = lanes.check(&password, &salt, &key, &mut matrix);
    assert!(matrix[..zeros].iter().all(|&word| word == 0), "{lanes:?}");
    assert!(matrix[zeros..].iter().all(|&word| word == 7), "{lanes:?}");
    if let Ok(checked) = checked {
        assert!(checked.same, "{lanes:?}");
    }
    [cost, derived, checked.map(|checked| checked.counts)]
}

/// The numbers within the limits, and none beside them, must be accepted by all three operations.
#[track_caller]
fn limits_hold(
    limits: RangeInclusive<usize>,
    [below, above]: [Refusal; 2],
    ask: impl Fn(usize) -> (Lanes, Lengths),
) {
    let ask = |number| {
        let (lanes, lengths) = ask(number);
        let words = lanes.parameters.matrix_words().unwrap_or(0).min(20_000_000);
        answers(lanes, lengths, words)
    };
    for number in [*limits.start(), *limits.end()] {
        let [cost, others @ ..] = ask(number);
        assert!(cost.is_ok(), "{above:?}: {number}");
        assert_eq!(others, [cost; 2], "{above:?}: {number}");
    }
    assert_eq!(ask(limits.end() + 1), [Err(above); 3]);
    if let Some(number) = limits.start().checked_sub(1) {
        assert_eq!(ask(number), [Err(below); 3]);
    }
}

#[test]
fn the_named_limits_are_the_librarys() {
    let lengths = |key, password, salt| {
        let lengths = Lengths {
            key,
            password,
            salt,
        };
        (lanes(1, 4, 1, 1), lengths)
    };
    limits_hold(KEY_LENGTHS, [Refusal::KeyLength; 2], |n| lengths(n, 0, 8));
    limits_hold(PASSWORD_LENGTHS, [Refusal::PasswordLength; 2], |n| {
        lengths(32, n, 8)
    });
    let salts = [Refusal::SaltTooShort, Refusal::SaltTooLong];
    limits_hold(SALT_LENGTHS, salts, |n| lengths(32, 0, n));
    limits_hold(LANES_TIME_COSTS, [Refusal::TimeCost; 2], |n| {
        (lanes(n, 4, 1, 1), LENGTHS)
    });
    limits_hold(COLUMNS, [Refusal::Columns; 2], |n| {
        (lanes(1, 4, n, 1), LENGTHS)
    });
    limits_hold(LANE_COUNTS, [Refusal::Lanes; 2], |n| {
        // A multiple of twice every number up to 9.
        (lanes(1, 5040, 1, n), LENGTHS)
    });
}

/// Every number of rows up to some, and the greatest, with every number of lanes and some that are too great.
#[test]
fn rows_that_lanes_can_share() {
    let (mut accepted, mut refused) = (0, 0);
    for count in (0..=10).chain([1 << 63, usize::MAX]) {
        for rows in (0..=150).chain(16_300..=16_400).chain([usize::MAX]) {
            let shared = LANE_COUNTS.contains(&count)
                && rows % (2 * count) == 0
                && rows >= LANE_ROWS_MIN * count;
            let due = match (ROWS.contains(&rows), shared) {
                (false, _) => Some(Refusal::Rows),
                (true, false) => Some(Refusal::Lanes),
                (true, true) => None,
            };
            let found = lanes(1, rows, 1, count).cost(LENGTHS);
            assert_eq!(found.err(), due, "{rows} rows, {count} lanes");
            match due {
                None => accepted += 1,
                Some(_) => refused += 1,
            }
        }
    }
    assert!(accepted > 300 && refused > 1000, "{accepted}, {refused}");
}

/// With everything wrong at once the first check refuses; put right one after another, each of them does.
#[test]
fn the_first_refusal_is_told() {
    let lengths = |key, password, salt| Lengths {
        key,
        password,
        salt,
    };
    for (lengths, wrong, refusal) in [
        (lengths(0, 1025, 7), lanes(0, 2, 0, 0), Refusal::KeyLength),
        (
            lengths(32, 1025, 7),
            lanes(0, 2, 0, 0),
            Refusal::PasswordLength,
        ),
        (lengths(32, 0, 7), lanes(0, 2, 0, 0), Refusal::SaltTooShort),
        (lengths(32, 0, 65), lanes(0, 2, 0, 0), Refusal::SaltTooLong),
        (LENGTHS, lanes(0, 2, 0, 0), Refusal::TimeCost),
        (LENGTHS, lanes(256, 2, 0, 0), Refusal::TimeCost),
        (LENGTHS, lanes(1, 2, 0, 0), Refusal::Rows),
        (LENGTHS, lanes(1, 3, 0, 0), Refusal::Columns),
        (LENGTHS, lanes(1, 3, 1, 0), Refusal::Lanes),
        (LENGTHS, lanes(1, 3, 1, 1), Refusal::Lanes),
    ] {
        assert_eq!(answers(wrong, lengths, 0), [Err(refusal); 3], "{wrong:?}");
    }
    for count in LANE_COUNTS {
        let right = lanes(1, 4 * count, 3, count);
        let words = right.parameters.matrix_words().expect("a small matrix");
        let [cost, others @ ..] = answers(right, LENGTHS, words - 1);
        assert!(cost.is_ok());
        assert_eq!(others, [Err(Refusal::MatrixWords); 2], "{right:?}");
        for words in [words, words + 1] {
            assert_eq!(answers(right, LENGTHS, words), [cost; 3], "{right:?}");
        }
    }
}

/// An input of three blocks and a key of two pieces, for every lane.
#[test]
fn counts_are_of_all_lanes_together() {
    let lengths = Lengths {
        key: 97,
        password: 88,
        salt: 8,
    };
    for count in LANE_COUNTS {
        let found = lanes(3, 8 * count, 5, count).cost(lengths).expect("within");
        let (full, reduced) = (count * (3 + 2), 8 * count * 5 * 4);
        let due = [full, reduced, 12 * full + reduced].map(|number| number as u64);
        assert_eq!([found.full, found.reduced, found.rounds], due, "{count}");
    }
}

/// Each number of lanes has a key of its own, and the single sponge has another.
#[test]
fn no_number_of_lanes_gives_the_key_of_another() {
    let parameters = Parameters {
        time: 1,
        // A multiple of twice every number up to 8.
        rows: 1680,
        columns: 2,
    };
    let mut matrix = parameters.matrix().expect("a small matrix");
    let mut single = [0; 32];
    derive(b"", b"saltsalt", parameters, &mut single, &mut matrix).expect("accepted");
    let mut keys = BTreeSet::from([single]);
    for count in LANE_COUNTS {
        let lanes = Lanes { parameters, count };
        let mut key = [0; 32];
        let derived = lanes.derive(b"", b"saltsalt", &mut key, &mut matrix);
        derived.expect("accepted");
        for stored in &keys {
            let checked = lanes.check(b"", b"saltsalt", stored, &mut matrix);
            assert!(!checked.expect("accepted").same, "{count}");
        }
        keys.insert(key);
    }
    assert_eq!(keys.len(), 1 + LANE_COUNTS.count());
}
