//! The packed record in the vectors file: that its lines cover what they should.

mod common;

use lyra2_reference::vectors::{Answer, Case, Given, Question};
use lyra2_reference::{Mixer, Refusal};
use std::collections::BTreeSet;
use std::ops::RangeInclusive;

/// The cases that request #108 added.
const NEW: RangeInclusive<u64> = 5097..=5350;

/// A case that is a recorded derivation, as what it is given, the words that it lends for the record, and its answer.
fn recorded(case: &Case) -> Option<(&Given, u64, &Answer)> {
    match &case.question {
        Question::DeriveRecorded {
            given,
            record_words,
            ..
        } => Some((given, *record_words, &case.answer)),
        _ => None,
    }
}

/// All of them are recorded derivations, since nothing else has a record.
fn new_cases() -> Vec<Case> {
    let mut cases: Vec<Case> = common::cases().into_iter().map(|(_, case)| case).collect();
    cases.retain(|case| NEW.contains(&case.number));
    assert!(cases.iter().all(|case| recorded(case).is_some()));
    cases
}

/// T, R and C of the new cases that are answered in a way, with the words that they lend for the record.
fn lent(wanted: impl Fn(&Answer, Mixer) -> bool) -> BTreeSet<([u64; 3], u64)> {
    let cases = new_cases();
    let all = cases.iter().filter_map(recorded);
    let kept = all.filter(|(given, _, answer)| wanted(answer, given.settings().mixer));
    kept.map(|(given, words, _)| ([given.t, given.r, given.c], words))
        .collect()
}

fn is_accepted(answer: &Answer) -> bool {
    matches!(answer, Answer::Recorded { .. })
}

fn used([t, r, c]: [u64; 3]) -> u64 {
    r * t * (1 + c)
}

const SMALL: [[u64; 3]; 8] = [
    [1, 3, 1],
    [2, 3, 1],
    [255, 3, 1],
    [1, 3, 2],
    [3, 5, 7],
    [1, 3, 256],
    [2, 257, 3],
    [1, 16_384, 1],
];

const LARGE: [[u64; 3]; 3] = [[2, 16_384, 1], [255, 16_384, 1], [1, 16_384, 256]];

/// Around the limit, and around the one from before request #108, which was twice as high.
#[test]
fn accepted_records_have_every_length_around_the_limits() {
    let found = lent(|answer, _| is_accepted(answer));
    for shape in SMALL {
        let used = used(shape);
        for words in [used, used + 1, 2 * used - 1, 2 * used, 2 * used + 1] {
            assert!(found.contains(&(shape, words)), "{shape:?}, {words} words");
        }
    }
    for shape in LARGE {
        assert!(found.contains(&(shape, used(shape))), "{shape:?}");
    }
    for words in [0, 1, 6, 12] {
        assert!(found.contains(&([0, 3, 1], words)), "T 0, {words} words");
    }
}

#[test]
fn refused_records_lack_one_word_or_all_with_each_mixer() {
    for mixer in [Mixer::Plain, Mixer::BlaMka] {
        let short = Answer::Refused(Refusal::RecordWords);
        let found = lent(|answer, of| *answer == short && of == mixer);
        // Those with more rows are asked with the plain mixer alone.
        let large = if mixer == Mixer::Plain {
            &LARGE[..]
        } else {
            &[]
        };
        for &shape in SMALL.iter().chain(large) {
            for words in [0, used(shape) - 1] {
                let asked = format!("{mixer:?}, {shape:?}, {words} words");
                assert!(found.contains(&(shape, words)), "{asked}");
            }
        }
    }
}

/// The length of the record is no part of what is derived.
#[test]
fn one_input_has_one_answer_with_records_of_every_length() {
    let cases = new_cases();
    let mut groups: Vec<(&Given, Vec<&Answer>)> = Vec::new();
    for (given, _, answer) in cases.iter().filter_map(recorded) {
        // The refused calls share their contents, which are zeros.
        if !is_accepted(answer) {
            continue;
        }
        match groups.iter_mut().find(|(other, _)| *other == given) {
            Some((_, answers)) => answers.push(answer),
            None => groups.push((given, vec![answer])),
        }
    }
    groups.retain(|(_, answers)| answers.len() > 1);
    assert!(groups.len() >= 12, "{}", groups.len());
    for (given, answers) in groups {
        let same = answers.iter().all(|answer| *answer == answers[0]);
        assert!(same, "{given:?}");
    }
}

/// Rows from 256 on in both halves of a word, and a visit of the most columns.
#[test]
fn listed_records_have_rows_that_need_more_than_a_byte() {
    let (mut large_rows, mut most_columns) = (0, 0);
    for (given, _, answer) in new_cases().iter().filter_map(recorded) {
        let Answer::Recorded { in_full, .. } = answer else {
            continue;
        };
        let Some((_, record)) = in_full else {
            continue;
        };
        assert_eq!(record.len() as u64, used([given.t, given.r, given.c]));
        let both_large = |word: &&u64| *word % 65_536 >= 256 && *word / 65_536 >= 256;
        large_rows += record.iter().filter(both_large).count();
        most_columns += u64::from(given.c == 256);
    }
    assert!(
        large_rows >= 20 && most_columns >= 1,
        "{large_rows} {most_columns}"
    );
}
