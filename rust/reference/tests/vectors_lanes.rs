//! The lanes in the vectors file: that its lines cover what they should, and that the checks have their order.

mod common;

use lyra2_reference::refusal::{LANES_CHECKS, LANES_COST_CHECKS};
use lyra2_reference::vectors::{checksum, write, Answer, Case, LanesGiven, Question};
use lyra2_reference::{Parameters, Refusal};
use std::collections::{BTreeMap, BTreeSet};

/// The first case that request #111 added.
const FIRST: u64 = 6780;

fn new_cases() -> Vec<Case> {
    let cases = common::cases().into_iter().map(|(_, case)| case);
    cases.filter(|case| case.number >= FIRST).collect()
}

/// The six numbers, p and the words of the lent matrix; the cost question is lent as many as are used.
fn sizes(question: &Question) -> Option<(Parameters, u64, u64)> {
    let lent = |given: &LanesGiven, key_len| {
        let parameters = given.parameters(key_len);
        (parameters, given.p, given.matrix_words)
    };
    Some(match question {
        Question::LanesDerive { given, key_len } => lent(given, *key_len),
        Question::LanesCheck { given, stored } => lent(given, stored.count()),
        Question::LanesCost { given, p } => (*given, *p, given.matrix_words()),
        _ => return None,
    })
}

/// Whether the condition of a check holds, also where another check comes first.
fn holds(check: Refusal, question: &Question) -> bool {
    let Some((given, p, matrix_words)) = sizes(question) else {
        return false;
    };
    match check {
        Refusal::KeyLength => given.key_len == 0 || given.key_len > 1024,
        Refusal::PasswordLength => given.password_len > 1024,
        Refusal::SaltTooShort => given.salt_len < 8,
        Refusal::SaltTooLong => given.salt_len > 64,
        Refusal::TimeCost => given.t == 0 || given.t > 255,
        Refusal::Rows => given.r < 3 || given.r > 16_384,
        Refusal::Columns => given.c == 0 || given.c > 256,
        // Said otherwise than in the program: the rows are some of 4·p, 6·p, 8·p and so on.
        Refusal::Lanes => {
            let fitting = |p: u64| (2..=8_192).any(|pairs| 2 * p * pairs == given.r);
            !(1..=8).any(|allowed| allowed == p && fitting(allowed))
        }
        Refusal::MatrixWords => matrix_words < given.matrix_words(),
        other => panic!("{other:?} is no check of lanes"),
    }
}

#[test]
fn refusals_follow_the_order_of_the_checks() {
    for case in new_cases() {
        let mut order = case.question.checks().iter();
        let due = order.find(|check| holds(**check, &case.question));
        let found = match &case.answer {
            Answer::Refused(refusal) => Some(refusal),
            _ => None,
        };
        assert_eq!(found, due, "case {}", case.number);
    }
}

/// Such a case shows a program that makes the later check first.
#[test]
fn every_check_is_answered_where_a_later_one_holds_too() {
    let cases = new_cases();
    for (op, order) in [
        ("lanes_derive", LANES_CHECKS),
        ("lanes_check", LANES_CHECKS),
        ("lanes_cost", LANES_COST_CHECKS),
    ] {
        let of_op = || cases.iter().filter(|case| write::op(&case.question) == op);
        for (place, first) in order.iter().enumerate() {
            for later in &order[place + 1..] {
                // No salt is too short and too long.
                if (*first, *later) == (Refusal::SaltTooShort, Refusal::SaltTooLong) {
                    continue;
                }
                let shows = |case: &Case| {
                    case.answer == Answer::Refused(*first) && holds(*later, &case.question)
                };
                assert!(of_op().any(shows), "{op}: {first:?}, {later:?}");
            }
        }
    }
}

/// Each check is answered where it is the only one that holds.
#[test]
fn every_check_is_answered_alone() {
    let mut alone: BTreeMap<&str, BTreeSet<u8>> = BTreeMap::new();
    for case in new_cases() {
        let checks = case.question.checks().iter();
        let holding: Vec<_> = checks
            .filter(|check| holds(**check, &case.question))
            .collect();
        if let [only] = holding[..] {
            let numbers = alone.entry(write::op(&case.question)).or_default();
            numbers.insert(only.number());
        }
    }
    for op in ["lanes_derive", "lanes_check"] {
        assert_eq!(alone[op], [1, 2, 3, 4, 5, 6, 7, 10, 20].into(), "{op}");
    }
    assert_eq!(alone["lanes_cost"], [1, 2, 3, 4, 5, 6, 10, 20].into());
}

/// The accepted derivations: their sizes, the words to spare and the answer.
fn derivations() -> Vec<(Parameters, u64, u64, Answer)> {
    let mut all = Vec::new();
    for case in new_cases() {
        if let (Question::LanesDerive { given, key_len }, Answer::Derived { .. }) =
            (&case.question, &case.answer)
        {
            let spare = given.matrix_words - 12 * given.r * given.c;
            all.push((given.parameters(*key_len), given.p, spare, case.answer));
        }
    }
    all
}

#[test]
fn derivations_cover_the_sizes() {
    let all = derivations();
    for p in 1..=8 {
        let has = |wanted: &dyn Fn(&Parameters) -> bool| {
            let own = all.iter().filter(|(_, own, ..)| *own == p);
            own.map(|(given, ..)| given).any(wanted)
        };
        for lane_rows in [4, 6, 8, 10, 14, 16, 18, 26, 62, 66] {
            assert!(has(&|given| given.r == p * lane_rows), "{p}, {lane_rows}");
        }
        assert!(has(&|given| given.t == 1 && given.r == 4 * p));
        assert!(has(&|given| given.t == 255 && given.r == 4 * p));
        assert!(has(&|given| given.c == 1));
    }
    let values = |value: fn(&Parameters) -> u64| -> BTreeSet<u64> {
        all.iter().map(|(given, ..)| value(given)).collect()
    };
    let keys = values(|given| given.key_len);
    assert!([1, 95, 96, 97, 192, 1024]
        .iter()
        .all(|len| keys.contains(len)));
    let edges = values(|given| (given.password_len + given.salt_len + 32) % 64);
    assert!([63, 0, 1].iter().all(|edge| edges.contains(edge)));
    assert!(values(|given| given.c).contains(&256));
    assert!(values(|given| given.r).contains(&16_384));
    assert!(all.iter().any(|(_, _, spare, _)| *spare >= 100));
}

#[test]
fn every_accepted_matrix_is_left_as_zeros() {
    for case in new_cases() {
        if let (
            Answer::Derived { matrix_sum, .. } | Answer::Checked { matrix_sum, .. },
            Some((given, ..)),
        ) = (&case.answer, sizes(&case.question))
        {
            let zeros = checksum::of_zero_words(12 * given.r * given.c);
            assert_eq!(*matrix_sum, zeros, "case {}", case.number);
        }
    }
}

/// The counts as the page has them.
#[test]
fn counts_of_the_formula() {
    let mut accepted = 0;
    for case in new_cases() {
        let (Answer::Derived { counts, .. }
        | Answer::Checked { counts, .. }
        | Answer::Cost(counts)) = &case.answer
        else {
            continue;
        };
        let (given, p, _) = sizes(&case.question).expect("a case of lanes");
        let blocks = (given.password_len + given.salt_len + 32) / 64 + 1;
        let pieces = given.key_len.div_ceil(96);
        assert_eq!(counts.full, p * (blocks + pieces), "case {}", case.number);
        assert_eq!(counts.reduced, given.r * given.c * (given.t + 1));
        assert_eq!(counts.rounds, 12 * counts.full + counts.reduced);
        accepted += 1;
    }
    assert!(accepted >= 300, "{accepted}");
}

#[test]
fn checks_say_yes_and_no_with_each_number_of_lanes() {
    let mut found = BTreeSet::new();
    for case in new_cases() {
        if let (Question::LanesCheck { given, .. }, Answer::Checked { matches, .. }) =
            (&case.question, &case.answer)
        {
            found.insert((given.p, *matches));
        }
    }
    let due = (1..=8).flat_map(|p| [(p, false), (p, true)]);
    assert_eq!(found, due.collect());
}

/// Eight keys for one input, all different.
#[test]
fn the_number_of_lanes_alone_changes_the_key() {
    let mut keys_of: BTreeMap<(Vec<u8>, u64), BTreeSet<Vec<u8>>> = BTreeMap::new();
    for case in new_cases() {
        if let (Question::LanesDerive { given, key_len: 32 }, Answer::Derived { key, .. }) =
            (&case.question, &case.answer)
        {
            let input = (given.password.to_vec(), given.r);
            keys_of.entry(input).or_default().insert(key.clone());
        }
    }
    assert!(keys_of.values().any(|keys| keys.len() == 8));
}
