//! The choices of costs in the vectors file: that they cover what they should, and that their refusals follow the order.

mod common;

use lyra2_reference::vectors::{Answer, Case, Question};
use lyra2_reference::{cost, Choice, Limits, Refusal};
use std::collections::BTreeSet;
use std::fmt::Debug;
use std::ops::RangeInclusive;

/// The cases that request #109 added.
const CHOICES: RangeInclusive<u64> = 5351..=5972;
const MAX: u64 = u64::MAX;

/// The limits of a choice, with what is answered.
struct Line {
    number: u64,
    limits: Limits,
    answer: Result<Choice, Refusal>,
}

fn line(case: Case) -> Option<Line> {
    let Question::Choose { limits } = case.question else {
        return None;
    };
    let answer = match case.answer {
        Answer::Chosen(choice) => Ok(choice),
        Answer::Refused(refusal) => Err(refusal),
        other => panic!("case {} has another answer: {other:?}", case.number),
    };
    Some(Line {
        number: case.number,
        limits,
        answer,
    })
}

fn lines() -> Vec<Line> {
    let cases = common::cases().into_iter().map(|(_, case)| case);
    cases.filter_map(line).collect()
}

#[test]
fn choices_stand_together() {
    for (_, case) in common::cases() {
        let is_choice = matches!(case.question, Question::Choose { .. });
        assert_eq!(is_choice, CHOICES.contains(&case.number));
    }
}

/// The rounds of the full calls alone; none where the lengths or ρ are refused.
fn full_rounds(limits: &Limits) -> Option<u64> {
    let smallest = cost(&limits.parameters([1, 3, 1]), limits.rho).ok()?;
    Some(12 * smallest.full)
}

/// The cells that the words leave and those that the rounds leave.
fn bounds(limits: &Limits) -> Option<[u64; 2]> {
    let left = limits.budget.saturating_sub(full_rounds(limits)?);
    Some([limits.matrix_words / 12, left / (2 * limits.rho)])
}

/// U, where the lengths and ρ are accepted.
fn most_cells(limits: &Limits) -> Option<u64> {
    let [for_words, for_rounds] = bounds(limits)?;
    Some(for_words.min(for_rounds).min(16_384 * 256))
}

/// Whether the condition of a check holds, also where another check comes first. With a refused length or ρ the words alone
/// and a budget of fewer than the fewest rounds tell that nothing fits.
fn holds(check: Refusal, limits: &Limits) -> bool {
    match check {
        Refusal::KeyLength => limits.key_len == 0 || limits.key_len > 1024,
        Refusal::PasswordLength => limits.password_len > 1024,
        Refusal::SaltTooShort => limits.salt_len < 8,
        Refusal::SaltTooLong => limits.salt_len > 64,
        Refusal::Rounds => limits.rho == 0 || limits.rho > 12,
        Refusal::Tries => limits.tries == 0,
        Refusal::NothingFits => match most_cells(limits) {
            Some(most) => most < 3,
            None => limits.matrix_words < 36 || limits.budget < 30,
        },
        other => panic!("{other:?} is no check of a choice"),
    }
}

const ORDER: [Refusal; 7] = [
    Refusal::KeyLength,
    Refusal::PasswordLength,
    Refusal::SaltTooShort,
    Refusal::SaltTooLong,
    Refusal::Rounds,
    Refusal::Tries,
    Refusal::NothingFits,
];

#[test]
fn refusals_follow_the_order_of_the_checks() {
    for Line {
        number,
        limits,
        answer,
    } in lines()
    {
        let due = ORDER.into_iter().find(|check| holds(*check, &limits));
        assert_eq!(answer.err(), due, "case {number}");
    }
}

/// Such a case shows a program that makes the later check first.
#[test]
fn every_check_is_answered_where_a_later_one_holds_too() {
    let lines = lines();
    for (place, first) in ORDER.iter().enumerate() {
        for later in &ORDER[place + 1..] {
            // No salt is too short and too long.
            if (*first, *later) == (Refusal::SaltTooShort, Refusal::SaltTooLong) {
                continue;
            }
            let shows = |line: &Line| line.answer == Err(*first) && holds(*later, &line.limits);
            assert!(lines.iter().any(shows), "{first:?}, {later:?}");
        }
    }
}

/// Each check alone refuses some line.
#[test]
fn every_check_is_answered_where_no_other_holds() {
    let lines = lines();
    for check in ORDER {
        let alone = |line: &Line| {
            let held = ORDER.iter().filter(|other| holds(**other, &line.limits));
            held.count() == 1 && line.answer == Err(check)
        };
        assert!(lines.iter().any(alone), "{check:?}");
    }
}

/// The limits of the lines that are answered in a way.
fn answered(wanted: impl Fn(&Result<Choice, Refusal>) -> bool) -> Vec<Limits> {
    let lines = lines().into_iter().filter(|line| wanted(&line.answer));
    lines.map(|line| line.limits).collect()
}

/// Requires that something has each of these values in some line.
#[track_caller]
fn assert_has<A: Ord + Debug>(
    lines: &[Limits],
    value: impl Fn(&Limits) -> Option<A>,
    due: impl IntoIterator<Item = A>,
) {
    let found: BTreeSet<A> = lines.iter().filter_map(value).collect();
    for value in due {
        assert!(found.contains(&value), "{value:?}");
    }
}

#[test]
fn limits_of_words_and_rounds() {
    let refused = answered(|answer| *answer == Err(Refusal::NothingFits));
    let accepted = answered(Result::is_ok);
    assert_has(&refused, most_cells, [0, 1, 2]);
    assert_has(&accepted, most_cells, [3, 4, 16_384 * 256]);
    let words = |limits: &Limits| Some(limits.matrix_words);
    assert_has(&refused, words, [0, 35, MAX]);
    assert_has(&accepted, words, [36, 37, 47, 48, MAX]);
    let budget = |limits: &Limits| Some(limits.budget);
    assert_has(&refused, budget, [0, 1, MAX]);
    let both = |limits: &Limits| Some([limits.matrix_words, limits.budget]);
    assert_has(&accepted, both, [[MAX, MAX]]);
    let past_full = |limits: &Limits| {
        let full = i128::from(full_rounds(limits)?);
        Some((limits.rho, i128::from(limits.budget) - full))
    };
    for rho in [1, 5, 12] {
        let least = i128::from(6 * rho);
        let short = [-1, 0, 1, least - 1].map(|rounds| (rho, rounds));
        assert_has(&refused, past_full, short);
        assert_has(&accepted, past_full, [(rho, least)]);
    }
}

/// Both the words and the rounds are what bounds the cells of many lines, and sometimes the largest matrix.
#[test]
fn every_bound_on_the_cells_is_the_least_somewhere() {
    let mut least = [0, 0, 0];
    for limits in answered(Result::is_ok) {
        let [for_words, for_rounds] = bounds(&limits).expect("the line is accepted");
        let largest = 16_384 * 256;
        least[0] += usize::from(for_words < for_rounds.min(largest));
        least[1] += usize::from(for_rounds < for_words.min(largest));
        least[2] += usize::from(largest < for_words.min(for_rounds));
    }
    assert!(least.iter().all(|&count| count >= 15), "{least:?}");
}

#[test]
fn column_counts_rounds_and_lengths() {
    let accepted = answered(Result::is_ok);
    let tries = [1, 2, 255, 256, 257, 1 << 32, MAX];
    assert_has(&accepted, |limits| Some(limits.tries), tries);
    assert_has(&accepted, |limits| Some(limits.rho), 1..=12);
    let keys = [1, 95, 96, 97, 192, 193, 1024];
    assert_has(&accepted, |limits| Some(limits.key_len), keys);
    let passwords = [0, 31, 32, 95, 96, 1024];
    assert_has(&accepted, |limits| Some(limits.password_len), passwords);
    assert_has(&accepted, |limits| Some(limits.salt_len), [8, 39, 40, 64]);
}

/// T at its limits and with a budget that is exactly enough, or a round short of the next.
#[test]
fn time_costs() {
    let mut exact = BTreeSet::new();
    let mut short = BTreeSet::new();
    for Line { limits, answer, .. } in lines() {
        let Ok(Choice { t, r, c, .. }) = answer else {
            continue;
        };
        let spent = |t| cost(&limits.parameters([t, r, c]), limits.rho).map(|counts| counts.rounds);
        if spent(t) == Ok(limits.budget) {
            exact.insert(t);
        }
        if t < 255 && spent(t + 1) == Ok(limits.budget + 1) {
            short.insert(t);
        }
    }
    assert!(exact.is_superset(&[1, 2, 3, 254, 255].into()), "{exact:?}");
    assert!(short.is_superset(&[1, 2, 253, 254].into()), "{short:?}");
}

/// The column counts that are tried and make as many cells.
fn as_many(limits: &Limits, cells: u64) -> Vec<u64> {
    let tried = 1..=limits.tries.min(256);
    let makes = |c: &u64| cells.is_multiple_of(*c) && (3..=16_384).contains(&(cells / c));
    tried.filter(makes).collect()
}

/// Several column counts make as many cells, with a shortfall and without, and with more than one column.
#[test]
fn several_column_counts_with_as_many_cells() {
    let mut found = [0, 0, 0];
    for Line { limits, answer, .. } in lines() {
        let Ok(Choice {
            r, c, shortfall, ..
        }) = answer
        else {
            continue;
        };
        let counts = as_many(&limits, r * c);
        assert_eq!(counts[0], c, "{limits:?}");
        if counts.len() > 1 {
            found[0] += usize::from(c == 1);
            found[1] += usize::from(c > 1 && shortfall == 0);
            found[2] += usize::from(c > 1 && shortfall > 0);
        }
    }
    assert!(found.iter().all(|&count| count >= 15), "{found:?}");
}

/// One column is cut to the most rows, and where few columns are tried, so are all of them.
#[test]
fn rows_at_their_limits() {
    let mut columns = BTreeSet::new();
    let mut fewest = 0;
    for Line { answer, .. } in lines() {
        if let Ok(Choice {
            r, c, shortfall, ..
        }) = answer
        {
            fewest += usize::from(r == 3);
            if r == 16_384 && shortfall >= c {
                columns.insert(c);
            }
        }
    }
    let due = [1, 2, 3, 4, 254, 255].into();
    assert!(columns.is_superset(&due), "{columns:?}");
    assert!(fewest >= 20, "{fewest}");
}
