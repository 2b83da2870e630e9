//! The refusals: each limit from both sides, the order of the checks, and buffers left as they were.

use lyra2_reference::refusal::{
    Refusal, BOOK_ADD_CHECKS, BOOK_CHECK_CHECKS, BOOK_FIND_CHECKS, CHOICE_CHECKS, COST_CHECKS,
    LANES_CHECKS, LANES_COST_CHECKS, LINE_READ_CHECKS, LINE_WRITE_CHECKS, PLAIN_CHECKS,
    RECORDED_CHECKS, ROTATIONS, ROUNDS, WALK_CHECKS,
};
use lyra2_reference::{
    check, cost, derive, derive_recorded, walk, Inputs, Mixer, Parameters, Settings,
};
use std::collections::BTreeSet;

/// The sizes of a call; the contents of its buffers do not matter here.
#[derive(Clone, Debug)]
struct Call {
    key_len: usize,
    password_len: usize,
    salt_len: usize,
    t: u64,
    r: u64,
    c: u64,
    settings: Settings,
    matrix_words: usize,
    record_words: usize,
}

/// A call that every operation accepts, with buffers that fit exactly.
const ACCEPTED: Call = Call {
    key_len: 32,
    password_len: 31,
    salt_len: 8,
    t: 1,
    r: 3,
    c: 1,
    settings: Settings::USUAL,
    matrix_words: 36,
    record_words: 6,
};

/// The answers of the four operations: recorded, plain, check and cost, each 0 or a refusal's number.
fn answers(call: &Call) -> [u8; 4] {
    let inputs = Inputs {
        password: &vec![1; call.password_len],
        salt: &vec![2; call.salt_len],
        t: call.t,
        r: call.r,
        c: call.c,
        settings: call.settings,
    };
    let mut key = vec![3; call.key_len];
    let mut matrix = vec![4; call.matrix_words];
    let mut record = vec![5; call.record_words];
    let untouched = |number: u8, key: &mut [u8], matrix: &mut [u64], record: &mut [u64]| {
        if number != 0 {
            assert!(key.iter().all(|&byte| byte == 3), "key: {call:?}");
            assert!(matrix.iter().all(|&word| word == 4), "matrix: {call:?}");
            assert!(record.iter().all(|&word| word == 5), "record: {call:?}");
        }
        key.fill(3);
        matrix.fill(4);
        record.fill(5);
        number
    };
    let answer = derive_recorded(&inputs, &mut key, &mut matrix, &mut record);
    let recorded = untouched(number(answer), &mut key, &mut matrix, &mut record);
    let answer = derive(&inputs, &mut key, &mut matrix);
    let plain = untouched(number(answer), &mut key, &mut matrix, &mut record);
    let answer = check(&inputs, &key, &mut matrix);
    let checked = untouched(number(answer), &mut key, &mut matrix, &mut record);
    let costed = number(cost(&inputs.parameters(call.key_len), call.settings.rho));
    [recorded, plain, checked, costed]
}

fn number<T>(answer: Result<T, Refusal>) -> u8 {
    answer.err().map_or(0, Refusal::number)
}

/// What the four operations must answer if the conditions of these checks hold: each the first in its order.
fn expected(held: &[Refusal]) -> [u8; 4] {
    [RECORDED_CHECKS, PLAIN_CHECKS, PLAIN_CHECKS, COST_CHECKS].map(|order| {
        let first = order.iter().find(|check| held.contains(check));
        first.map_or(0, |check| check.number())
    })
}

/// A call that differs from the accepted one in what the change does to it.
fn changed(change: impl Fn(&mut Call)) -> [u8; 4] {
    let mut call = ACCEPTED;
    change(&mut call);
    answers(&call)
}

#[test]
fn the_call_that_the_others_start_from_is_accepted() {
    assert_eq!(answers(&ACCEPTED), [0; 4]);
}

#[test]
fn lengths_outside_their_limits() {
    for key_len in [0, 1025, 1026, 2048, 65_537] {
        let found = changed(|call| call.key_len = key_len);
        assert_eq!(found, expected(&[Refusal::KeyLength]));
    }
    for password_len in [1025, 1026, 2048, 65_536, 100_000] {
        let found = changed(|call| call.password_len = password_len);
        assert_eq!(found, expected(&[Refusal::PasswordLength]));
    }
    for salt_len in 0..=7 {
        let found = changed(|call| call.salt_len = salt_len);
        assert_eq!(found, expected(&[Refusal::SaltTooShort]));
    }
    for salt_len in [65, 66, 128, 255, 256, 264, 65_535, 65_544] {
        let found = changed(|call| call.salt_len = salt_len);
        assert_eq!(found, expected(&[Refusal::SaltTooLong]));
    }
}

#[test]
fn numbers_outside_their_limits() {
    // Each list has values whose low 8, 16 or 32 bits would be accepted.
    for t in [
        256,
        257,
        1 << 16,
        1 << 16 | 1,
        1 << 32,
        1 << 32 | 1,
        u64::MAX,
    ] {
        assert_eq!(changed(|call| call.t = t), expected(&[Refusal::TimeCost]));
    }
    for r in [0, 1, 2, 16_385, 1 << 16 | 3, 1 << 32 | 3, u64::MAX] {
        assert_eq!(changed(|call| call.r = r), expected(&[Refusal::Rows]));
    }
    for c in [0, 257, 1 << 16 | 1, 1 << 32 | 1, u64::MAX] {
        assert_eq!(changed(|call| call.c = c), expected(&[Refusal::Columns]));
    }
    for rho in [
        0,
        13,
        14,
        1 << 8 | 1,
        1 << 16 | 1,
        1 << 32,
        1 << 32 | 1,
        u64::MAX,
    ] {
        let found = changed(|call| call.settings.rho = rho);
        assert_eq!(found, [13; 4], "rho {rho}");
    }
    for omega in [
        0,
        12,
        13,
        14,
        1 << 8 | 2,
        1 << 16 | 2,
        1 << 32,
        1 << 32 | 2,
        u64::MAX,
    ] {
        let found = changed(|call| call.settings.omega = omega);
        assert_eq!(found, [14, 14, 14, 0], "omega {omega}");
    }
    let largest = changed(|call| (call.t, call.r, call.c) = (u64::MAX, u64::MAX, u64::MAX));
    assert_eq!(largest, expected(&[Refusal::TimeCost]));
}

#[test]
fn limits_themselves_are_accepted() {
    for key_len in [1, 1024] {
        assert_eq!(changed(|call| call.key_len = key_len), [0; 4]);
    }
    for password_len in [0, 1024] {
        assert_eq!(changed(|call| call.password_len = password_len), [0; 4]);
    }
    for salt_len in [8, 64] {
        assert_eq!(changed(|call| call.salt_len = salt_len), [0; 4]);
    }
    for (t, record_words) in [(0, 0), (0, 6), (255, 255 * 6)] {
        let change = |call: &mut Call| (call.t, call.record_words) = (t, record_words);
        assert_eq!(changed(change), [0; 4]);
    }
    let high = |call: &mut Call| {
        (call.r, call.matrix_words, call.record_words) = (16_384, 196_608, 32_768)
    };
    assert_eq!(changed(high), [0; 4]);
    let wide = |call: &mut Call| (call.c, call.matrix_words, call.record_words) = (256, 9_216, 771);
    assert_eq!(changed(wide), [0; 4]);
    for rho in ROUNDS {
        for omega in ROTATIONS {
            for mixer in [Mixer::Plain, Mixer::BlaMka] {
                let settings = Settings { rho, omega, mixer };
                assert_eq!(
                    changed(|call| call.settings = settings),
                    [0; 4],
                    "{settings:?}"
                );
            }
        }
    }
}

#[test]
fn buffers_one_word_short() {
    let short_matrix = expected(&[Refusal::MatrixWords]);
    let short_record = expected(&[Refusal::RecordWords]);
    for (t, r, c) in [(1, 3, 1), (2, 3, 1), (1, 7, 4), (3, 4, 5), (1, 64, 16)] {
        let (matrix_words, record_words) = (12 * r * c, r * t * (1 + c));
        let fitting = Call {
            t: t as u64,
            r: r as u64,
            c: c as u64,
            matrix_words,
            record_words,
            ..ACCEPTED
        };
        assert_eq!(answers(&fitting), [0; 4]);
        let mut short = fitting.clone();
        short.record_words -= 1;
        assert_eq!(answers(&short), short_record);
        short.matrix_words -= 1;
        assert_eq!(answers(&short), short_matrix);
        short.record_words += 1;
        assert_eq!(answers(&short), short_matrix);
    }
    let setup_alone = |call: &mut Call| (call.t, call.matrix_words, call.record_words) = (0, 35, 0);
    assert_eq!(changed(setup_alone), short_matrix);
    assert_eq!(changed(|call| call.matrix_words = 0), short_matrix);
    assert_eq!(changed(|call| call.record_words = 0), short_record);
}

/// Makes the condition of a check hold by one of two values, from both sides of the limits if it has two.
fn make_hold(call: &mut Call, check: Refusal, high: bool) {
    let pick = |low: u64, above: u64| if high { above } else { low };
    match check {
        Refusal::KeyLength => call.key_len = pick(0, 1025) as usize,
        Refusal::PasswordLength => call.password_len = 1025,
        Refusal::SaltTooShort => call.salt_len = pick(0, 7) as usize,
        Refusal::SaltTooLong => call.salt_len = pick(65, 1025) as usize,
        Refusal::TimeCost => call.t = pick(256, u64::MAX),
        Refusal::Rows => call.r = pick(2, u64::MAX),
        Refusal::Columns => call.c = pick(0, u64::MAX),
        Refusal::Rounds => call.settings.rho = pick(0, 13),
        Refusal::Rotation => call.settings.omega = pick(0, 12),
        Refusal::MatrixWords => call.matrix_words = pick(0, 35) as usize,
        Refusal::RecordWords => call.record_words = pick(0, 5) as usize,
        Refusal::WalkRow
        | Refusal::LineForm
        | Refusal::OutputTooShort
        | Refusal::Tries
        | Refusal::NothingFits
        | Refusal::DamagedBook
        | Refusal::NoAccount
        | Refusal::BookTooShort
        | Refusal::Lanes => panic!("none of the four operations has this check"),
    }
}

#[test]
fn the_first_of_any_set_of_conditions_is_returned() {
    for set in 1u32..1 << RECORDED_CHECKS.len() {
        let in_set = |place: &usize| set >> place & 1 == 1;
        let places = (0..RECORDED_CHECKS.len()).filter(in_set);
        let held: Vec<_> = places.map(|place| RECORDED_CHECKS[place]).collect();
        // No salt is too short and too long.
        if held.contains(&Refusal::SaltTooShort) && held.contains(&Refusal::SaltTooLong) {
            continue;
        }
        for high in [false, true] {
            let mut call = ACCEPTED;
            held.iter()
                .for_each(|check| make_hold(&mut call, *check, high));
            assert_eq!(answers(&call), expected(&held), "{call:?}");
        }
    }
}

/// What makes a call into one that is refused.
type Change = fn(&mut Call);

/// The calls that a check of the plain derivation refuses, one condition each.
const OUTSIDE: [(Refusal, Change); 15] = [
    (Refusal::KeyLength, |call| call.key_len = 0),
    (Refusal::KeyLength, |call| call.key_len = 1025),
    (Refusal::PasswordLength, |call| call.password_len = 1025),
    (Refusal::SaltTooShort, |call| call.salt_len = 7),
    (Refusal::SaltTooLong, |call| call.salt_len = 65),
    (Refusal::TimeCost, |call| call.t = 256),
    (Refusal::Rows, |call| call.r = 2),
    (Refusal::Rows, |call| call.r = 16_385),
    (Refusal::Columns, |call| call.c = 0),
    (Refusal::Columns, |call| call.c = 257),
    (Refusal::Rounds, |call| call.settings.rho = 0),
    (Refusal::Rounds, |call| call.settings.rho = 13),
    (Refusal::Rotation, |call| call.settings.omega = 0),
    (Refusal::Rotation, |call| call.settings.omega = 12),
    (Refusal::MatrixWords, |call| call.matrix_words = 35),
];

/// Such calls have room for all the words that an accepted one would wipe, 7 excepted.
#[test]
fn refused_calls_keep_a_matrix_that_would_have_fitted() {
    let listed = |check: &Refusal| OUTSIDE.iter().any(|(other, _)| other == check);
    assert!(PLAIN_CHECKS.iter().all(listed));
    for (refusal, change) in OUTSIDE {
        let mut call = Call {
            matrix_words: 12 * 16_385,
            ..ACCEPTED
        };
        change(&mut call);
        let inputs = Inputs {
            password: &vec![1; call.password_len],
            salt: &vec![2; call.salt_len],
            t: call.t,
            r: call.r,
            c: call.c,
            settings: call.settings,
        };
        let before: Vec<u64> = (1..=call.matrix_words as u64).map(|word| !word).collect();
        let mut matrix = before.clone();
        let (mut key, mut record) = (vec![3; call.key_len], [5; 6]);
        let answers = [
            number(derive(&inputs, &mut key, &mut matrix)),
            number(check(&inputs, &key, &mut matrix)),
            number(derive_recorded(&inputs, &mut key, &mut matrix, &mut record)),
        ];
        assert_eq!(answers, [refusal.number(); 3], "{call:?}");
        assert!(matrix == before, "{call:?}");
    }
}

#[test]
fn cost_of_lengths_that_no_buffer_has() {
    let largest = Parameters {
        key_len: u64::MAX,
        password_len: u64::MAX,
        salt_len: u64::MAX,
        t: u64::MAX,
        r: u64::MAX,
        c: u64::MAX,
    };
    assert_eq!(number(cost(&largest, u64::MAX)), 1);
    let key = Parameters {
        key_len: 1 << 32 | 32,
        ..largest
    };
    assert_eq!(number(cost(&key, 1)), 1);
    let password = Parameters {
        key_len: 32,
        ..largest
    };
    assert_eq!(number(cost(&password, 1)), 2);
    let salt = Parameters {
        password_len: 0,
        ..password
    };
    assert_eq!(number(cost(&salt, 1)), 10);
    // Cut to 32 bits, these salts would be too short or would pass.
    for salt_len in [1 << 32, 1 << 32 | 8, 1 << 32 | 64, 1 << 32 | 65] {
        assert_eq!(number(cost(&Parameters { salt_len, ..salt }, 1)), 10);
    }
    assert_eq!(largest.matrix_words(), u64::MAX);
    assert_eq!(largest.record_words(), u64::MAX);
}

#[test]
fn walk_question_has_checks_5_and_9() {
    for r in [0, 1, 2, 16_385, 1 << 32 | 8, u64::MAX] {
        for row0 in [0, 2, 3, 7, u64::MAX] {
            assert_eq!(number(walk(r, row0)), 5, "R {r}, row0 {row0}");
        }
    }
    for r in [3, 4, 8, 16_384] {
        for row0 in [0, 1, 2, r, r + 1, 1 << 32 | 3, u64::MAX] {
            assert_eq!(number(walk(r, row0)), 9, "R {r}, row0 {row0}");
        }
        for row0 in 3..r {
            assert_eq!(number(walk(r, row0)), 0, "R {r}, row0 {row0}");
        }
    }
}

fn numbers(refusals: &[Refusal]) -> Vec<u8> {
    refusals.iter().map(|refusal| refusal.number()).collect()
}

#[test]
fn orders_of_the_checks() {
    assert_eq!(
        numbers(RECORDED_CHECKS),
        [1, 2, 3, 10, 4, 5, 6, 13, 14, 7, 8]
    );
    assert_eq!(numbers(PLAIN_CHECKS), [1, 2, 3, 10, 4, 5, 6, 13, 14, 7]);
    assert_eq!(numbers(COST_CHECKS), [1, 2, 3, 10, 4, 5, 6, 13]);
    assert_eq!(numbers(CHOICE_CHECKS), [1, 2, 3, 10, 13, 15, 16]);
    assert_eq!(numbers(BOOK_FIND_CHECKS), [17, 18]);
    assert_eq!(numbers(BOOK_ADD_CHECKS), [1, 3, 10, 4, 5, 6, 17, 19]);
    assert_eq!(numbers(BOOK_CHECK_CHECKS), [2, 17, 18, 7]);
    assert_eq!(numbers(WALK_CHECKS), [5, 9]);
    assert_eq!(numbers(LANES_CHECKS), [1, 2, 3, 10, 4, 5, 6, 20, 7]);
    assert_eq!(numbers(LANES_COST_CHECKS), [1, 2, 3, 10, 4, 5, 6, 20]);
}

#[test]
fn every_refusal_is_a_check_of_some_operation() {
    let orders = [
        RECORDED_CHECKS,
        PLAIN_CHECKS,
        COST_CHECKS,
        WALK_CHECKS,
        LINE_READ_CHECKS,
        LINE_WRITE_CHECKS,
        CHOICE_CHECKS,
        BOOK_FIND_CHECKS,
        BOOK_ADD_CHECKS,
        BOOK_CHECK_CHECKS,
        LANES_CHECKS,
        LANES_COST_CHECKS,
    ];
    let made: BTreeSet<_> = numbers(&orders.concat()).into_iter().collect();
    assert_eq!(made, numbers(Refusal::ALL).into_iter().collect());
}

#[test]
fn numbers_and_sentences() {
    let all: Vec<u8> = (1..=20).collect();
    assert_eq!(numbers(Refusal::ALL), all);
    let mut sentences = BTreeSet::new();
    for refusal in Refusal::ALL {
        let number = u64::from(refusal.number());
        assert_eq!(Refusal::from_number(number), Some(*refusal));
        assert_eq!(Refusal::from_number(256 + number), None);
        assert!(refusal.to_string().contains("must"));
        assert!(sentences.insert(refusal.to_string()), "{refusal}");
    }
    assert_eq!(Refusal::from_number(0), None);
    assert_eq!(Refusal::from_number(21), None);
}
