//! Several lanes through the static library, against the second program: every small shape, every number of rows and lanes up to some
//! bound, and every set of conditions at once.

use derivation_link::Proved;
use lyra2_reference::refusal::{Refusal, LANES_CHECKS, LANES_COST_CHECKS};
use lyra2_reference::vectors::random::Random;
use lyra2_reference::vectors::{
    run, Answer, Bytes, Case, Coverage, LanesGiven, Question, Reference, Subject,
};
use lyra2_reference::{lanes_cost, Parameters};

/// A derivation from random bytes, with words to spare.
fn question(random: &mut Random, p: u64, lane_rows: u64, t: u64, c: u64) -> Question {
    let (password_len, salt_len) = (random.between(0, 150), random.between(8, 64));
    let mut given = LanesGiven {
        password: Bytes::Listed(random.bytes(password_len)),
        salt: Bytes::Listed(random.bytes(salt_len)),
        t,
        r: p * lane_rows,
        c,
        p,
        matrix_words: 0,
    };
    let key_len = random.between(16, 200);
    given.matrix_words = given.parameters(key_len).matrix_words() + random.between(0, 3);
    Question::LanesDerive { given, key_len }
}

/// Derives with both programs, and asks the first for the cost and for checks of the key and of another.
fn assert_agree(question: Question) {
    let answer = run::ask(&Reference, &question).expect("the second program keeps its buffers");
    assert!(matches!(answer, Answer::Derived { .. }), "{question:?}");
    let case = Case {
        number: 1,
        question,
        answer,
    };
    let outcome = run::check_case(&Proved, &case);
    assert_eq!(outcome, Ok(Coverage::Whole), "{:?}", case.question);
}

/// Setup has up to eleven meetings before its end, and the visits up to twelve.
#[test]
fn every_small_shape() {
    let mut random = Random::new(113);
    for p in 1..=8 {
        for lane_rows in (4..=34).step_by(2) {
            for t in 1..=3 {
                for c in 1..=3 {
                    assert_agree(question(&mut random, p, lane_rows, t, c));
                }
            }
        }
    }
}

/// Rows on both sides of where the meetings come farther apart.
#[test]
fn larger_numbers_of_rows() {
    let mut random = Random::new(114);
    for p in 1..=8 {
        for lane_rows in [62, 64, 66, 254, 256, 258, 1022, 1024, 1026, 2048] {
            assert_agree(question(&mut random, p, lane_rows, 1, 1));
        }
    }
}

/// The six numbers of an accepted call.
const ACCEPTED: Parameters = Parameters {
    key_len: 32,
    password_len: 23,
    salt_len: 8,
    t: 1,
    r: 8,
    c: 1,
};

#[test]
fn every_number_of_rows_and_lanes() {
    let mut accepted = 0;
    for p in 0..=20 {
        for r in (0..=300).chain(16_300..=16_400) {
            let given = Parameters { r, ..ACCEPTED };
            let due = lanes_cost(&given, p);
            assert_eq!(Proved.lanes_cost(&given, p), Some(due), "p {p}, R {r}");
            accepted += u64::from(due.is_ok());
        }
    }
    // Of 3 to 300 and of 16,300 to 16,384 the multiples of 2·p that are 4·p at least.
    let fitting = |p: u64| {
        let all = (3..=300).chain(16_300..=16_384);
        all.filter(|r| r % (2 * p) == 0 && *r >= 4 * p).count() as u64
    };
    assert_eq!(accepted, (1..=8).map(fitting).sum());
    for bit in 4..64 {
        for p in [1 << bit, 1 << bit | 2, u64::MAX >> (63 - bit)] {
            let found = Proved.lanes_cost(&ACCEPTED, p);
            assert_eq!(found, Some(Err(Refusal::Lanes)), "p {p}");
        }
    }
}

/// The sizes of a call.
struct Call {
    given: Parameters,
    p: u64,
    matrix_words: u64,
}

/// Takes the size that a check is about out of its limits.
fn make_hold(call: &mut Call, check: Refusal, high: bool) {
    let pick = |low: u64, above: u64| if high { above } else { low };
    let given = &mut call.given;
    match check {
        Refusal::KeyLength => given.key_len = pick(0, 1025),
        Refusal::PasswordLength => given.password_len = 1025,
        Refusal::SaltTooShort => given.salt_len = pick(0, 7),
        Refusal::SaltTooLong => given.salt_len = pick(65, 1025),
        Refusal::TimeCost => given.t = pick(0, u64::MAX),
        Refusal::Rows => given.r = pick(2, u64::MAX),
        // Too many both times: no matrix is too short for no columns.
        Refusal::Columns => given.c = pick(257, u64::MAX),
        Refusal::Lanes => call.p = pick(0, 9),
        Refusal::MatrixWords => call.matrix_words = pick(0, 95),
        other => panic!("{other:?} is no check of lanes"),
    }
}

/// The answers to a call: of the derivation, the check and the cost question.
fn answers(call: &Call) -> [Answer; 3] {
    let given = LanesGiven {
        password: Bytes::Zeros(call.given.password_len),
        salt: Bytes::Zeros(call.given.salt_len),
        t: call.given.t,
        r: call.given.r,
        c: call.given.c,
        p: call.p,
        matrix_words: call.matrix_words,
    };
    let questions = [
        Question::LanesDerive {
            given: given.clone(),
            key_len: call.given.key_len,
        },
        Question::LanesCheck {
            given,
            stored: Bytes::Zeros(call.given.key_len),
        },
        Question::LanesCost {
            given: call.given,
            p: call.p,
        },
    ];
    questions.map(|question| run::ask(&Proved, &question).expect("the library keeps its buffers"))
}

#[test]
fn of_several_refusals_the_first_in_the_order_is_returned() {
    for set in 1u32..1 << LANES_CHECKS.len() {
        for high in [false, true] {
            let mut call = Call {
                given: ACCEPTED,
                p: 2,
                matrix_words: 96,
            };
            let mut held = Vec::new();
            for (place, check) in LANES_CHECKS.iter().enumerate() {
                // No salt is too short and too long.
                let is_second_salt =
                    *check == Refusal::SaltTooLong && held.contains(&Refusal::SaltTooShort);
                if set >> place & 1 == 1 && !is_second_salt {
                    make_hold(&mut call, *check, high);
                    held.push(*check);
                }
            }
            let first = |order: &[Refusal]| {
                let mut checks = order.iter();
                checks.find(|check| held.contains(check)).copied()
            };
            let orders = [LANES_CHECKS, LANES_CHECKS, LANES_COST_CHECKS];
            for (order, found) in orders.into_iter().zip(answers(&call)) {
                let refused = match found {
                    Answer::Refused(refusal) => Some(refusal),
                    _ => None,
                };
                assert_eq!(refused, first(order), "{held:?}");
            }
        }
    }
}
