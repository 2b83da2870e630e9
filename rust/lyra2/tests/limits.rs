//! The crate's constants and sizes against what the library accepts, and the refusals' words.

use lyra2::{
    check, choose, cost, derive, derive_recorded, walk, Lengths, Limits, Mixer, Parameters,
    Refusal, Settings, COLUMNS, KEY_LENGTHS, PASSWORD_LENGTHS, ROTATIONS, ROUNDS, ROWS,
    SALT_LENGTHS, TIME_COSTS, USUAL_MIXER, USUAL_ROTATION, USUAL_ROUNDS,
};
use std::collections::BTreeSet;
use std::fmt::Debug;
use std::ops::RangeInclusive;

const LENGTHS: Lengths = Lengths {
    key: 32,
    password: 31,
    salt: 8,
};
const SMALLEST: Parameters = Parameters {
    time: 1,
    rows: 3,
    columns: 1,
};
const MIXERS: [Mixer; 2] = [Mixer::Plain, Mixer::BlaMka];

/// The numbers within the limits, and none beside them, must be accepted by the library. The refusals are
/// those of a number below the limits and of one above.
fn limits_hold<A: Debug + PartialEq>(
    limits: RangeInclusive<usize>,
    [below, above]: [Refusal; 2],
    ask: impl Fn(usize) -> Result<A, Refusal>,
) {
    for number in [*limits.start(), *limits.end()] {
        assert!(ask(number).is_ok(), "{above:?}: {number}");
    }
    for number in [limits.end() + 1, usize::MAX] {
        assert_eq!(ask(number), Err(above), "{number}");
    }
    if let Some(number) = limits.start().checked_sub(1) {
        assert_eq!(ask(number), Err(below), "{number}");
    }
}

#[test]
fn the_named_limits_are_the_librarys() {
    let lengths = |key, password, salt| Lengths {
        key,
        password,
        salt,
    };
    let of = |time, rows, columns| Parameters {
        time,
        rows,
        columns,
    };
    limits_hold(KEY_LENGTHS, [Refusal::KeyLength; 2], |n| {
        cost(lengths(n, 31, 8), SMALLEST, 1)
    });
    limits_hold(PASSWORD_LENGTHS, [Refusal::PasswordLength; 2], |n| {
        cost(lengths(32, n, 8), SMALLEST, 1)
    });
    let salts = [Refusal::SaltTooShort, Refusal::SaltTooLong];
    limits_hold(SALT_LENGTHS, salts, |n| {
        cost(lengths(32, 31, n), SMALLEST, 1)
    });
    limits_hold(TIME_COSTS, [Refusal::TimeCost; 2], |n| {
        cost(LENGTHS, of(n, 3, 1), 1)
    });
    limits_hold(ROWS, [Refusal::Rows; 2], |n| cost(LENGTHS, of(1, n, 1), 1));
    limits_hold(COLUMNS, [Refusal::Columns; 2], |n| {
        cost(LENGTHS, of(1, 3, n), 1)
    });
}

#[test]
fn the_named_limits_are_those_of_a_choice_of_costs() {
    let ask = |key, password, salt, rounds, tries| {
        let lengths = Lengths {
            key,
            password,
            salt,
        };
        let limits = Limits {
            words: 1000,
            budget: 1000,
            rounds,
            tries,
        };
        choose(lengths, limits)
    };
    limits_hold(KEY_LENGTHS, [Refusal::KeyLength; 2], |n| {
        ask(n, 31, 8, 1, 1)
    });
    limits_hold(PASSWORD_LENGTHS, [Refusal::PasswordLength; 2], |n| {
        ask(32, n, 8, 1, 1)
    });
    let salts = [Refusal::SaltTooShort, Refusal::SaltTooLong];
    limits_hold(SALT_LENGTHS, salts, |n| ask(32, 31, n, 1, 1));
    limits_hold(ROUNDS, [Refusal::Rounds; 2], |n| ask(32, 31, 8, n, 1));
    assert_eq!(ask(32, 31, 8, 1, 0), Err(Refusal::Tries));
    for tries in [1, 256, 257, usize::MAX] {
        assert!(ask(32, 31, 8, 1, tries).is_ok(), "{tries}");
    }
}

/// The three operations that take settings, over a matrix and a record of the smallest size. What a refused call leaves
/// must be what was there.
fn with_settings(
    rounds: usize,
    rotation: usize,
    mixer: Mixer,
) -> [Result<lyra2::Counts, Refusal>; 3] {
    let settings = Settings {
        parameters: SMALLEST,
        rounds,
        rotation,
        mixer,
    };
    let (mut key, mut matrix, mut record) = ([7; 32], [7; 36], [7; 6]);
    let (password, salt) = (b"", b"saltsalt");
    let recorded = derive_recorded(password, salt, settings, &mut key, &mut matrix, &mut record);
    if recorded.is_err() {
        assert_eq!((key, matrix, record), ([7; 32], [7; 36], [7; 6]));
    }
    let mut matrix = [7; 36];
    let checked = check(password, salt, settings, &key, &mut matrix);
    let derived = derive(password, salt, settings, &mut key, &mut matrix);
    if derived.is_err() {
        assert_eq!((key, matrix), ([7; 32], [7; 36]));
    }
    [
        recorded.map(|recorded| recorded.counts),
        checked.map(|checked| checked.counts),
        derived,
    ]
}

#[test]
fn the_named_limits_of_rounds_and_rotation_are_the_librarys() {
    limits_hold(ROUNDS, [Refusal::Rounds; 2], |n| cost(LENGTHS, SMALLEST, n));
    for (place, mixer) in (0..3).flat_map(|place| MIXERS.map(|mixer| (place, mixer))) {
        limits_hold(ROUNDS, [Refusal::Rounds; 2], |n| {
            with_settings(n, 11, mixer)[place]
        });
        limits_hold(ROTATIONS, [Refusal::Rotation; 2], |n| {
            with_settings(12, n, mixer)[place]
        });
    }
}

/// Each of the limits' values counts as many rounds as it says, rotation and mixer none.
#[test]
fn rounds_are_counted_and_rotation_and_mixer_are_not() {
    for rounds in ROUNDS {
        let due = cost(LENGTHS, SMALLEST, rounds).expect("within the limits");
        assert_eq!((due.full, due.reduced), (2, 6));
        assert_eq!(due.rounds, 24 + 6 * rounds as u64);
        for (rotation, mixer) in ROTATIONS.flat_map(|n| MIXERS.map(|mixer| (n, mixer))) {
            assert_eq!(with_settings(rounds, rotation, mixer), [Ok(due); 3]);
        }
    }
}

/// Setup rotates while it fills the fourth row, and reads what was rotated while it fills the fifth; so do the visits.
/// The mixer counts everywhere.
#[test]
fn the_rotation_counts_where_it_is_read_again() {
    for (time, rows, due) in [(0, 3, 1), (0, 4, 1), (0, 5, 11), (1, 3, 11)] {
        let choices = ROTATIONS.flat_map(|rotation| MIXERS.map(|mixer| (rotation, mixer)));
        let keys: BTreeSet<_> = choices
            .map(|(rotation, mixer)| {
                let parameters = Parameters {
                    time,
                    rows,
                    columns: 2,
                };
                let settings = Settings {
                    rotation,
                    mixer,
                    ..parameters.into()
                };
                let mut key = [0; 32];
                derive(b"", b"saltsalt", settings, &mut key, &mut [0; 120]).expect("accepted");
                key
            })
            .collect();
        assert_eq!(keys.len(), 2 * due, "T = {time}, R = {rows}");
    }
}

#[test]
fn parameters_alone_are_the_usual_settings() {
    assert_eq!(
        (USUAL_ROUNDS, USUAL_ROTATION, USUAL_MIXER),
        (1, 2, Mixer::Plain)
    );
    let usual = Settings {
        parameters: SMALLEST,
        rounds: USUAL_ROUNDS,
        rotation: USUAL_ROTATION,
        mixer: USUAL_MIXER,
    };
    assert_eq!(Settings::from(SMALLEST), usual);
}

/// With everything wrong at once the first check refuses; put right one after another, each of them does. The mixer is
/// nothing to them.
#[test]
fn the_first_refusal_is_told() {
    for mixer in MIXERS {
        first_refusals(mixer);
    }
}

fn first_refusals(mixer: Mixer) {
    let right = Settings {
        mixer,
        ..SMALLEST.into()
    };
    let columns = |columns, rounds, rotation| Settings {
        parameters: Parameters {
            columns,
            ..SMALLEST
        },
        rounds,
        rotation,
        mixer,
    };
    let mut key = [7; 32];
    for (settings, refusal, cost_refusal) in [
        (columns(0, 0, 0), Refusal::Columns, Some(Refusal::Columns)),
        (
            columns(257, 13, 12),
            Refusal::Columns,
            Some(Refusal::Columns),
        ),
        (columns(1, 0, 0), Refusal::Rounds, Some(Refusal::Rounds)),
        (columns(1, 13, 12), Refusal::Rounds, Some(Refusal::Rounds)),
        (columns(1, 1, 0), Refusal::Rotation, None),
        (columns(1, 1, 12), Refusal::Rotation, None),
        (right, Refusal::MatrixWords, None),
    ] {
        let (password, salt) = (b"", b"saltsalt");
        let recorded = derive_recorded(password, salt, settings, &mut key, &mut [], &mut []);
        assert_eq!(recorded, Err(refusal), "{settings:?}");
        let derived = derive(password, salt, settings, &mut key, &mut []);
        assert_eq!(derived, Err(refusal), "{settings:?}");
        let checked = check(password, salt, settings, &key, &mut []);
        assert_eq!(checked, Err(refusal), "{settings:?}");
        let cost = cost(LENGTHS, settings.parameters, settings.rounds);
        assert_eq!(cost.err(), cost_refusal, "{settings:?}");
    }
    let (mut matrix, no_record) = ([7; 36], &mut []);
    let recorded = derive_recorded(b"", b"saltsalt", right, &mut key, &mut matrix, no_record);
    assert_eq!(recorded, Err(Refusal::RecordWords));
    assert_eq!((key, matrix), ([7; 32], [7; 36]));
}

#[test]
fn buffers_of_the_named_sizes_are_accepted_and_shorter_ones_are_not() {
    for (time, rows, columns, rounds, rotation, mixer) in [
        (0, 3, 1, 1, 2, Mixer::Plain),
        (0, 40, 9, 12, 11, Mixer::BlaMka),
        (1, 3, 1, 1, 1, Mixer::Plain),
        (2, 5, 7, 2, 6, Mixer::BlaMka),
        (255, 3, 2, 3, 2, Mixer::Plain),
        (1, 300, 16, 1, 2, Mixer::BlaMka),
    ] {
        let parameters = Parameters {
            time,
            rows,
            columns,
        };
        let settings = Settings {
            parameters,
            rounds,
            rotation,
            mixer,
        };
        let mut matrix = vec![7; parameters.matrix_words().expect("a small matrix")];
        let mut record = vec![7; parameters.record_words().expect("a small record")];
        let (words, mut key) = (matrix.len(), [7; 32]);
        let mut derive = |matrix: &mut [u64], record: &mut [u64]| {
            derive_recorded(b"", b"saltsalt", settings, &mut key, matrix, record)
        };
        // Without visits there is no word to leave out.
        if let Some(short_record) = record.get_mut(1..) {
            assert_eq!(
                derive(&mut matrix, short_record),
                Err(Refusal::RecordWords),
                "{parameters:?}"
            );
        }
        let short_matrix = derive(&mut matrix[1..], &mut record);
        assert_eq!(short_matrix, Err(Refusal::MatrixWords), "{parameters:?}");
        assert!(matrix.iter().chain(&record).all(|&word| word == 7));
        assert!(derive(&mut matrix, &mut record).is_ok(), "{parameters:?}");
        assert_eq!(words, 12 * rows * columns);
    }
}

/// Every combination of small and large numbers, against the products in wider numbers.
#[test]
fn sizes_of_any_numbers() {
    let numbers = [0, 1, 3, 255, 1 << 30, 1 << 32, 1 << 61, 1 << 63, usize::MAX];
    let narrow = |size: Option<u128>| size.and_then(|size| usize::try_from(size).ok());
    let (mut sizes, mut without_room) = (0, 0);
    for time in numbers {
        for (rows, columns) in numbers.iter().flat_map(|r| numbers.map(|c| (*r, c))) {
            let parameters = Parameters {
                time,
                rows,
                columns,
            };
            let [t, r, c] = [time, rows, columns].map(|number| number as u128);
            let due = [(r * c).checked_mul(12), (r * t).checked_mul(1 + c)].map(narrow);
            let found = [parameters.matrix_words(), parameters.record_words()];
            assert_eq!(found, due, "{parameters:?}");
            sizes += found.len();
            without_room += found.iter().filter(|size| size.is_none()).count();
        }
    }
    assert!(without_room > 100 && sizes - without_room > 100);
}

#[test]
fn numbers_without_a_size_are_refused() {
    let parameters = Parameters {
        time: 1,
        rows: usize::MAX,
        columns: usize::MAX,
    };
    assert_eq!(parameters.matrix_words(), None);
    let refused = Err(Refusal::Rows);
    assert_eq!(cost(LENGTHS, parameters, USUAL_ROUNDS), refused);
    let mut key = [1; 32];
    assert_eq!(
        derive(b"", b"saltsalt", parameters, &mut key, &mut []),
        refused
    );
    let checked = check(b"", b"saltsalt", parameters, &key, &mut []);
    assert_eq!(checked.map(|checked| checked.counts), refused);
    assert_eq!(key, [1; 32]);
}

#[test]
fn walk_questions() {
    let row1 = |row0| walk(16, row0).expect("a row that Setup fills");
    assert_eq!(
        (8..16).map(row1).collect::<Vec<_>>(),
        [0, 3, 6, 1, 4, 7, 2, 5]
    );
    assert_eq!(walk(2, 3), Err(Refusal::Rows));
    assert_eq!(walk(8, 8), Err(Refusal::WalkRow));
}

#[test]
fn refusals_are_numbered_from_1_to_20_and_each_has_its_sentence() {
    let numbers = Refusal::ALL.map(Refusal::number);
    assert!(numbers.into_iter().eq(1..=20), "{numbers:?}");
    let sentences = Refusal::ALL.map(|refusal| refusal.to_string());
    let named = [
        "1 to 1024",
        "0 to 1024",
        "at least 8 bytes",
        "T must be 0 to 255, with lanes not 0",
        "R must be 3 to 16384",
        "C must be 1 to 256",
        "12*R*C words",
        "R*T*(1+C) words",
        "3 to R-1",
        "at most 64 bytes",
        "$lyra2$t=T,r=R,c=C$SALT$KEY",
        "have room",
        "rounds of a reduced call must be 1 to 12",
        "rotation must be 1 to 11 words",
        "at least one column count",
        "no T from 1 on, R and C fit",
        "whole accounts within the limits, no number twice",
        "no account of this number",
        "room for the account",
        "p must be 1 to 8, and R a multiple of 2*p, at least 4*p",
    ];
    for (sentence, limit) in sentences.iter().zip(named) {
        assert!(sentence.contains(limit), "{sentence}");
    }
    assert_eq!(sentences.iter().collect::<BTreeSet<_>>().len(), named.len());
    let error: Box<dyn std::error::Error> = Refusal::WalkRow.into();
    assert_eq!(error.to_string(), sentences[8]);
}
