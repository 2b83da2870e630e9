//! The vectors file of the repository: it is what the generator writes, and it covers what it should.

mod common;

use lyra2_reference::vectors::{
    checksum, chosen_text, run, write, Answer, Case, Coverage, Given, Question, Reference,
};
use lyra2_reference::{Parameters, Refusal, Settings};
use std::collections::{BTreeMap, BTreeSet};
use std::ops::RangeInclusive;

#[test]
fn file_is_what_the_generator_writes() {
    let written = chosen_text().unwrap();
    let file = String::from_utf8(common::file()).unwrap();
    for (place, (x, y)) in file.lines().zip(written.lines()).enumerate() {
        assert_eq!(x, y, "line {}", place + 1);
    }
    // Compared without assert_eq, which would print both files.
    assert!(file == written, "the files differ in length");
}

/// Whether a case lends less than a million words; the larger ones take most of the time.
fn is_small(question: &Question) -> bool {
    match question {
        Question::DeriveRecorded { given, .. }
        | Question::Derive { given, .. }
        | Question::Check { given, .. } => given.matrix_words < 1_000_000,
        // Those with lanes lend 200,000 words at most.
        _ => true,
    }
}

#[test]
fn small_cases_hold_and_the_operations_agree() {
    let mut cases = common::cases();
    cases.retain(|(_, case)| is_small(&case.question));
    assert!(cases.len() > 2000);
    for (line, case) in cases {
        let outcome = run::check_case(&Reference, &case);
        assert_eq!(outcome, Ok(Coverage::Whole), "line {line}");
    }
}

#[test]
fn reading_and_writing_are_inverse() {
    let file = String::from_utf8(common::file()).unwrap();
    let lines: Vec<_> = file.lines().collect();
    for (line, case) in common::cases() {
        assert_eq!(write::line(&case).trim_end(), lines[line - 1]);
    }
}

/// The values that a size takes in the accepted recorded derivations.
fn accepted_values(size: impl Fn(&Question) -> u64) -> BTreeSet<u64> {
    common::cases()
        .iter()
        .filter(|(_, case)| matches!(case.answer, Answer::Recorded { .. }))
        .map(|(_, case)| size(&case.question))
        .collect()
}

/// Key length, password length, salt length, T, R and C of a recorded derivation.
fn sizes(question: &Question) -> [u64; 6] {
    match question {
        Question::DeriveRecorded { given, key_len, .. } => {
            let p = given.parameters(*key_len);
            [p.key_len, p.password_len, p.salt_len, p.t, p.r, p.c]
        }
        _ => [0; 6],
    }
}

#[test]
fn accepted_cases_cover_the_sizes() {
    let values = |place: usize| accepted_values(|question| sizes(question)[place]);
    let keys = values(0);
    assert!((1..=100).all(|len| keys.contains(&len)));
    for multiple in (96..=1024).step_by(96) {
        assert!([multiple - 1, multiple, multiple + 1]
            .iter()
            .all(|len| keys.contains(len)));
    }
    assert!(keys.contains(&1023) && keys.contains(&1024));
    let passwords = values(1);
    assert!(passwords.contains(&0) && passwords.contains(&1024));
    assert_eq!(values(2), (8..=64).collect());
    assert_eq!(values(3), (0..=255).collect());
    let rows = values(4);
    assert!((3..=80).all(|r| rows.contains(&r)));
    assert!(rows.contains(&16_383) && rows.contains(&16_384));
    assert_eq!(values(5), (1..=256).collect());
}

#[test]
fn accepted_cases_cover_both_sides_of_every_block_edge() {
    let mut passwords_of_salt: BTreeMap<u64, BTreeSet<u64>> = BTreeMap::new();
    for (_, case) in common::cases() {
        let [_, password_len, salt_len, ..] = sizes(&case.question);
        if let Answer::Recorded { .. } = case.answer {
            let passwords = passwords_of_salt.entry(salt_len).or_default();
            passwords.insert(password_len);
        }
    }
    let complete = passwords_of_salt.iter().filter(|(salt_len, passwords)| {
        let at_edge = |len: &u64| [63, 0, 1].contains(&((len + *salt_len + 24) % 64));
        (0..=1024)
            .filter(at_edge)
            .all(|len| passwords.contains(&len))
    });
    assert!(complete.count() >= 8);
}

#[test]
fn numbers_of_cases() {
    let cases = common::cases();
    let count = |wanted: &dyn Fn(&Answer) -> bool| {
        let found = cases.iter().filter(|(_, case)| wanted(&case.answer));
        found.count()
    };
    assert!(count(&|answer| matches!(answer, Answer::Recorded { .. })) >= 1000);
    assert!(count(&|answer| matches!(answer, Answer::Refused(_))) >= 300);
    assert!(count(&|answer| matches!(answer, Answer::Walk { .. })) >= 100);
    assert!(count(&|answer| matches!(answer, Answer::Output(_))) >= 50);
    assert!(count(&|answer| matches!(answer, Answer::Checked { matches: true, .. })) >= 20);
    assert!(count(&|answer| matches!(answer, Answer::Checked { matches: false, .. })) >= 20);
    let in_full = |answer: &Answer| {
        matches!(
            answer,
            Answer::Recorded {
                in_full: Some(_),
                ..
            }
        )
    };
    assert!(count(&in_full) >= 10);
}

#[test]
fn every_operation_has_each_of_its_refusals() {
    let mut found: BTreeMap<&str, BTreeSet<u8>> = BTreeMap::new();
    for (_, case) in common::cases() {
        if let Answer::Refused(refusal) = case.answer {
            let op = write::op(&case.question);
            found.entry(op).or_default().insert(refusal.number());
        }
    }
    let expected: [(&str, BTreeSet<u8>); 15] = [
        (
            "derive_recorded",
            [1, 2, 3, 4, 5, 6, 7, 8, 10, 13, 14].into(),
        ),
        ("derive", [1, 2, 3, 4, 5, 6, 7, 10, 13, 14].into()),
        ("check", [1, 2, 3, 4, 5, 6, 7, 10, 13, 14].into()),
        ("cost", [1, 2, 3, 4, 5, 6, 10, 13].into()),
        ("walk", [5, 9].into()),
        ("line_read", [1, 3, 4, 5, 6, 10, 11, 12].into()),
        ("line_write", [1, 3, 4, 5, 6, 10, 12].into()),
        ("choose", [1, 2, 3, 10, 13, 15, 16].into()),
        ("book_find", [17, 18].into()),
        ("book_add", [1, 3, 4, 5, 6, 10, 17, 19].into()),
        ("book_remove", [17, 18].into()),
        ("book_check", [2, 7, 17, 18].into()),
        ("lanes_derive", [1, 2, 3, 4, 5, 6, 7, 10, 20].into()),
        ("lanes_check", [1, 2, 3, 4, 5, 6, 7, 10, 20].into()),
        ("lanes_cost", [1, 2, 3, 4, 5, 6, 10, 20].into()),
    ];
    assert_eq!(found, expected.into());
}

/// What the checks of a question look at; where it lends no matrix or record, the most words stand for it.
struct Asked {
    given: Parameters,
    settings: Settings,
    matrix_words: u64,
    record_words: u64,
}

impl Asked {
    fn new(given: &Given, key_len: u64) -> Asked {
        Asked {
            given: given.parameters(key_len),
            settings: given.settings(),
            matrix_words: given.matrix_words,
            record_words: u64::MAX,
        }
    }
}

/// The walk has other numbers, and the login lines, the choices, the books and the lanes have tests of their own.
fn asked(question: &Question) -> Option<Asked> {
    Some(match question {
        Question::DeriveRecorded {
            given,
            key_len,
            record_words,
            ..
        } => Asked {
            record_words: *record_words,
            ..Asked::new(given, *key_len)
        },
        Question::Derive { given, key_len } => Asked::new(given, *key_len),
        Question::Check { given, stored } => Asked::new(given, stored.count()),
        Question::Cost { given, rho } => Asked {
            given: *given,
            settings: Settings {
                rho: rho.unwrap_or(1),
                ..Settings::USUAL
            },
            matrix_words: u64::MAX,
            record_words: u64::MAX,
        },
        Question::Walk { .. }
        | Question::WalkProgram { .. }
        | Question::LineRead { .. }
        | Question::LineWrite { .. }
        | Question::Choose { .. }
        | Question::BookFind { .. }
        | Question::BookAdd { .. }
        | Question::BookRemove { .. }
        | Question::BookCheck { .. }
        | Question::BookAccount { .. }
        | Question::LanesDerive { .. }
        | Question::LanesCheck { .. }
        | Question::LanesCost { .. } => return None,
    })
}

/// Whether the condition of a check holds for a question, also where another check comes first.
fn holds(check: Refusal, question: &Question) -> bool {
    let Some(asked) = asked(question) else {
        return false;
    };
    let Asked {
        given, settings, ..
    } = asked;
    match check {
        Refusal::KeyLength => given.key_len == 0 || given.key_len > 1024,
        Refusal::PasswordLength => given.password_len > 1024,
        Refusal::SaltTooShort => given.salt_len < 8,
        Refusal::SaltTooLong => given.salt_len > 64,
        Refusal::TimeCost => given.t > 255,
        Refusal::Rows => given.r < 3 || given.r > 16_384,
        Refusal::Columns => given.c == 0 || given.c > 256,
        Refusal::Rounds => settings.rho == 0 || settings.rho > 12,
        Refusal::Rotation => settings.omega == 0 || settings.omega > 11,
        Refusal::MatrixWords => asked.matrix_words < given.matrix_words(),
        Refusal::RecordWords => asked.record_words < given.record_words(),
        Refusal::WalkRow
        | Refusal::LineForm
        | Refusal::OutputTooShort
        | Refusal::Tries
        | Refusal::NothingFits
        | Refusal::DamagedBook
        | Refusal::NoAccount
        | Refusal::BookTooShort
        | Refusal::Lanes => false,
    }
}

/// The cases of the operations other than the walk, the login lines, the choice, the books and the lanes, by operation.
fn cases_by_operation() -> BTreeMap<&'static str, Vec<Case>> {
    let mut cases_of: BTreeMap<_, Vec<Case>> = BTreeMap::new();
    for (_, case) in common::cases() {
        if asked(&case.question).is_some() {
            let own = cases_of.entry(write::op(&case.question)).or_default();
            own.push(case);
        }
    }
    assert_eq!(cases_of.len(), 4);
    cases_of
}

#[test]
fn refusals_follow_the_order_of_the_checks() {
    for case in cases_by_operation().into_values().flatten() {
        let mut order = case.question.checks().iter();
        let due = order.find(|check| holds(**check, &case.question));
        let found = match &case.answer {
            Answer::Refused(refusal) => Some(refusal),
            _ => None,
        };
        assert_eq!(found, due, "case {}", case.number);
    }
}

/// Such a case shows a program that makes the later check first.
#[test]
fn every_check_is_answered_where_a_later_one_holds_too() {
    for (op, cases) in cases_by_operation() {
        let order = cases[0].question.checks();
        for (place, first) in order.iter().enumerate() {
            for later in &order[place + 1..] {
                // No salt is too short and too long.
                if (*first, *later) == (Refusal::SaltTooShort, Refusal::SaltTooLong) {
                    continue;
                }
                let shows = |case: &Case| {
                    case.answer == Answer::Refused(*first) && holds(*later, &case.question)
                };
                assert!(cases.iter().any(shows), "{op}: {first:?}, {later:?}");
            }
        }
    }
}

/// The cases that request #104 added.
const WIPED: RangeInclusive<u64> = 3011..=3138;

/// What an accepted plain derivation or check is given and its key length, with the sum of what it leaves.
fn wiped(case: &Case) -> Option<(&Given, u64, u64)> {
    match (&case.question, &case.answer) {
        (Question::Derive { given, key_len }, Answer::Derived { matrix_sum, .. }) => {
            Some((given, *key_len, *matrix_sum))
        }
        (Question::Check { given, stored }, Answer::Checked { matrix_sum, .. }) => {
            Some((given, stored.count(), *matrix_sum))
        }
        _ => None,
    }
}

#[test]
fn zeros_are_left_by_plain_derivations_and_checks_alone() {
    for (_, case) in common::cases() {
        let zeros = |given: &Given| checksum::of_zero_words(12 * given.r * given.c);
        if let Some((given, _, sum)) = wiped(&case) {
            assert_eq!(sum, zeros(given), "case {}", case.number);
        }
        if let (Question::DeriveRecorded { given, .. }, Answer::Recorded { matrix_sum, .. }) =
            (&case.question, &case.answer)
        {
            assert_ne!(*matrix_sum, zeros(given), "case {}", case.number);
        }
    }
}

/// A reader who compares such lines sees one key, and a matrix that only the first of them keeps.
#[test]
fn recorded_derivations_of_request_104_are_asked_again_as_plain_ones_and_checks() {
    let cases: Vec<Case> = common::cases().into_iter().map(|(_, case)| case).collect();
    let mut recorded = 0;
    for lines in cases.windows(4) {
        let (Question::DeriveRecorded { given, key_len, .. }, Answer::Recorded { key, .. }) =
            (&lines[0].question, &lines[0].answer)
        else {
            continue;
        };
        if !WIPED.contains(&lines[0].number) {
            continue;
        }
        for case in &lines[1..] {
            let (same, len, _) = wiped(case).expect("a plain derivation or a check follows");
            assert_eq!((same, len), (given, *key_len), "case {}", case.number);
        }
        let derived =
            matches!(&lines[1].answer, Answer::Derived { key: other, .. } if other == key);
        assert!(derived, "case {}", lines[1].number);
        let answers = lines[2..].iter().map(|case| match case.answer {
            Answer::Checked { matches, .. } => Some(matches),
            _ => None,
        });
        let answers: Vec<_> = answers.collect();
        assert_eq!(answers, [Some(true), Some(false)]);
        recorded += 1;
    }
    assert!(recorded >= 25, "{recorded}");
}

/// T, R, C, the key length and the words past the used ones, of the accepted cases of an operation.
fn wiped_sizes(op: &str) -> Vec<[u64; 5]> {
    let cases = common::cases().into_iter().map(|(_, case)| case);
    let own: Vec<Case> = cases
        .filter(|case| write::op(&case.question) == op)
        .collect();
    let sizes = |(given, key_len, _): (&Given, u64, u64)| {
        let spare = given.matrix_words - 12 * given.r * given.c;
        [given.t, given.r, given.c, key_len, spare]
    };
    own.iter()
        .filter_map(|case| wiped(case).map(sizes))
        .collect()
}

#[test]
fn wiped_matrices_cover_the_limits() {
    for op in ["derive", "check"] {
        let sizes = wiped_sizes(op);
        for t in [0, 1] {
            for c in [1, 256] {
                for spare in [0, 1] {
                    let has = |size: &[u64; 5]| size[..3] == [t, 3, c] && size[4] == spare;
                    assert!(
                        sizes.iter().any(has),
                        "{op}: T {t}, C {c}, {spare} to spare"
                    );
                }
            }
            for key_len in [1, 96, 97, 1024] {
                let has = |size: &[u64; 5]| size[0] == t && size[3] == key_len;
                assert!(sizes.iter().any(has), "{op}: T {t}, key of {key_len}");
            }
            let has_many = |size: &[u64; 5]| size[0] == t && size[4] >= 100;
            assert!(sizes.iter().any(has_many), "{op}: T {t}, many to spare");
        }
    }
}

/// Only 7 has no matrix that would have fitted.
#[test]
fn every_other_refusal_is_asked_for_with_a_matrix_that_would_have_fitted() {
    let mut found: BTreeMap<&str, BTreeSet<u8>> = BTreeMap::new();
    for case in cases_by_operation().into_values().flatten() {
        if let (Some(asked), Answer::Refused(refusal)) = (asked(&case.question), &case.answer) {
            if asked.matrix_words > asked.given.matrix_words() {
                let own = found.entry(write::op(&case.question)).or_default();
                own.insert(refusal.number());
            }
        }
    }
    for op in ["derive", "check"] {
        assert_eq!(found[op], [1, 2, 3, 4, 5, 6, 10, 13, 14].into(), "{op}");
    }
}
