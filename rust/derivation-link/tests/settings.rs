//! Every choice of rounds, rotation and mixer through the static library, against the second program.
//!
//! A recorded derivation is compared in its key, state, matrix, record and counts; the plain derivation, the check of
//! the key and of another key, and the cost question are then asked about the same inputs.

use derivation_link::Proved;
use lyra2_reference::refusal::{ROTATIONS, ROUNDS};
use lyra2_reference::vectors::random::Random;
use lyra2_reference::vectors::{
    run, Answer, Bytes, Case, Coverage, Given, NamedSettings, Question, Reference,
};
use lyra2_reference::{Mixer, Settings};
use std::collections::BTreeSet;

/// T, R and C: the smallest matrix, some that reach several windows of the Setup walk, and Setup alone.
const SHAPES: [(u64, u64, u64); 6] = [
    (1, 3, 1),
    (1, 4, 2),
    (2, 9, 3),
    (1, 35, 5),
    (0, 3, 2),
    (0, 18, 4),
];

/// A recorded derivation from random bytes, with words to spare in both buffers.
fn question(random: &mut Random, (t, r, c): (u64, u64, u64), settings: Settings) -> Question {
    let (password_len, salt_len) = (random.between(0, 150), random.between(8, 64));
    let mut given = Given {
        password: Bytes::Listed(random.bytes(password_len)),
        salt: Bytes::Listed(random.bytes(salt_len)),
        t,
        r,
        c,
        settings: Some(NamedSettings::from(settings)),
        matrix_words: 0,
    };
    let key_len = random.between(16, 200);
    let sizes = given.parameters(key_len);
    given.matrix_words = sizes.matrix_words() + random.between(0, 3);
    Question::DeriveRecorded {
        given,
        key_len,
        record_words: sizes.record_words() + random.between(0, 3),
        in_full: true,
    }
}

fn assert_agree(question: Question) -> Answer {
    let answer = run::ask(&Reference, &question).expect("the second program keeps its buffers");
    assert!(matches!(answer, Answer::Recorded { .. }), "{question:?}");
    let case = Case {
        number: 1,
        question,
        answer,
    };
    let outcome = run::check_case(&Proved, &case);
    assert_eq!(outcome, Ok(Coverage::Whole), "{:?}", case.question);
    case.answer
}

/// Every accepted choice of rounds, rotation and mixer.
fn all_settings() -> impl Iterator<Item = Settings> {
    let pairs = ROUNDS.flat_map(|rho| ROTATIONS.map(move |omega| (rho, omega)));
    let with_each =
        |(rho, omega)| [Mixer::Plain, Mixer::BlaMka].map(|mixer| Settings { rho, omega, mixer });
    pairs.flat_map(with_each)
}

#[test]
fn every_choice_with_several_shapes() {
    let mut random = Random::new(106);
    for settings in all_settings() {
        for shape in SHAPES {
            assert_agree(question(&mut random, shape, settings));
        }
    }
}

/// One input has another key with each choice, so that none of them can stand for another.
#[test]
fn every_choice_has_a_key_of_its_own() {
    let mut keys = BTreeSet::new();
    for settings in all_settings() {
        let question = question(&mut Random::new(106), (1, 5, 3), settings);
        let Answer::Recorded { key, .. } = assert_agree(question) else {
            continue;
        };
        keys.insert(key);
    }
    assert_eq!(keys.len(), 12 * 11 * 2);
}

/// The mixer changes the key, the state and the matrix of every shape, and never what a derivation costs.
#[test]
fn mixers_differ_in_all_but_the_counts() {
    for shape in SHAPES {
        for (rho, omega) in [(1, 2), (1, 11), (12, 1), (5, 7)] {
            let [plain, blamka] = [Mixer::Plain, Mixer::BlaMka].map(|mixer| {
                let settings = Settings { rho, omega, mixer };
                let answer = assert_agree(question(&mut Random::new(107), shape, settings));
                match answer {
                    Answer::Recorded {
                        key,
                        state,
                        counts,
                        matrix_sum,
                        ..
                    } => (counts, key, state, matrix_sum),
                    other => panic!("{other:?}"),
                }
            });
            assert_eq!(plain.0, blamka.0);
            assert!(plain.1 != blamka.1 && plain.2 != blamka.2 && plain.3 != blamka.3);
        }
    }
}
