//! Rounds, rotation and mixer in the vectors file: that its lines cover what they should.

mod common;

use lyra2_reference::vectors::{run, write, Answer, Case, Given, Question, Reference};
use lyra2_reference::{Counts, Mixer, Refusal, Settings};
use std::collections::{BTreeMap, BTreeSet};

/// The first case that request #106 added.
const FIRST_WITH_SETTINGS: u64 = 4065;
/// The first case that request #107 added.
const FIRST_WITH_MIXER: u64 = 4655;

fn cases() -> Vec<Case> {
    common::cases().into_iter().map(|(_, case)| case).collect()
}

/// What a question derives from, if it derives.
fn given(question: &Question) -> Option<&Given> {
    match question {
        Question::DeriveRecorded { given, .. }
        | Question::Derive { given, .. }
        | Question::Check { given, .. } => Some(given),
        _ => None,
    }
}

/// The same question with no settings named.
fn unnamed(question: &Question) -> Question {
    let mut question = question.clone();
    match &mut question {
        Question::DeriveRecorded { given, .. }
        | Question::Derive { given, .. }
        | Question::Check { given, .. } => given.settings = None,
        Question::Cost { rho, .. } => *rho = None,
        _ => (),
    }
    question
}

/// A choice always has its ρ, which is no setting of a derivation there; books and lanes have no settings.
fn has_no_settings(case: &Case) -> bool {
    let op = write::op(&case.question);
    op == "choose" || op.starts_with("book_") || op.starts_with("lanes_")
}

#[test]
fn settings_are_named_from_request_106_on() {
    for case in cases().into_iter().filter(|case| !has_no_settings(case)) {
        let is_named = unnamed(&case.question) != case.question;
        let is_new = case.number >= FIRST_WITH_SETTINGS;
        assert_eq!(is_named, is_new, "case {}", case.number);
    }
}

/// An old question that names the usual choice has its old answer, and with other settings another.
#[test]
fn old_questions_are_asked_again_with_settings() {
    let is_old = |case: &Case| case.number < FIRST_WITH_SETTINGS;
    let (old, new): (Vec<Case>, Vec<Case>) = cases().into_iter().partition(is_old);
    let (mut usual, mut other) = (0, 0);
    for case in new {
        let question = unnamed(&case.question);
        let earlier = old.iter().find(|earlier| earlier.question == question);
        let (Some(earlier), Some(given)) = (earlier, given(&case.question)) else {
            continue;
        };
        let same = case.answer == earlier.answer;
        if given.settings() == Settings::USUAL {
            assert!(same, "case {}", case.number);
            usual += 1;
        } else if matches!(case.answer, Answer::Recorded { .. }) {
            assert!(!same, "case {}", case.number);
            other += 1;
        }
    }
    assert!(usual >= 8 && other >= 8, "{usual} {other}");
}

/// ρ and ω of the derivations with a mixer that are answered in a way, of those alone in which both phases rotate and a
/// column is picked.
fn settings_of(mixer: Mixer, wanted: impl Fn(&Answer) -> bool) -> BTreeSet<(u64, u64)> {
    let mut found = BTreeSet::new();
    for case in cases() {
        let Some(given) = given(&case.question) else {
            continue;
        };
        let settings = given.settings();
        let tells = given.t > 0 && given.r > 3 && given.c > 1;
        if tells && settings.mixer == mixer && wanted(&case.answer) {
            found.insert((settings.rho, settings.omega));
        }
    }
    found
}

fn is_recorded(answer: &Answer) -> bool {
    matches!(answer, Answer::Recorded { .. })
}

#[test]
fn every_pair_is_derived_with() {
    let pairs = (1..=12).flat_map(|rho| (1..=11).map(move |omega| (rho, omega)));
    let recorded = settings_of(Mixer::Plain, is_recorded);
    assert_eq!(recorded, pairs.collect());
}

#[test]
fn every_limit_and_many_pairs_are_derived_with_blamka() {
    let recorded = settings_of(Mixer::BlaMka, is_recorded);
    for rho in 1..=12 {
        for omega in 1..=11 {
            let at_limit = [1, 12].contains(&rho) || [1, 11].contains(&omega);
            assert!(
                !at_limit || recorded.contains(&(rho, omega)),
                "{rho} {omega}"
            );
        }
    }
    assert!(recorded.len() >= 70, "{}", recorded.len());
}

#[test]
fn limits_are_listed_in_full_derived_and_checked_with_both_mixers() {
    let is_full = |answer: &Answer| match answer {
        Answer::Recorded { in_full, .. } => in_full.is_some(),
        _ => false,
    };
    let is_derived = |answer: &Answer| matches!(answer, Answer::Derived { .. });
    let checked = |due| move |answer: &Answer| matches!(answer, Answer::Checked { matches, .. } if *matches == due);
    for mixer in [Mixer::Plain, Mixer::BlaMka] {
        let found = [
            settings_of(mixer, is_full),
            settings_of(mixer, is_derived),
            settings_of(mixer, checked(true)),
            settings_of(mixer, checked(false)),
        ];
        for limits in [(1, 1), (1, 2), (1, 11), (12, 1), (12, 11)] {
            let has_all = found.iter().all(|settings| settings.contains(&limits));
            assert!(has_all, "{mixer:?}, {limits:?}: {found:?}");
        }
    }
}

#[test]
fn derivations_without_visits_have_other_settings_too() {
    let is_other = |given: &Given| given.t == 0 && given.settings() != Settings::USUAL;
    let mut cases = cases();
    cases.retain(|case| {
        matches!(case.answer, Answer::Recorded { .. })
            && given(&case.question).is_some_and(is_other)
    });
    assert!(cases.len() >= 20, "{}", cases.len());
}

#[test]
fn every_number_of_rounds_has_a_cost() {
    let mut found = BTreeSet::new();
    for case in cases() {
        if let (Question::Cost { rho, .. }, Answer::Cost(_)) = (case.question, case.answer) {
            found.extend(rho);
        }
    }
    assert_eq!(found, (1..=12).collect());
}

/// By operation, the values of a setting with which calls are refused for it.
fn refused(refusal: Refusal) -> BTreeMap<&'static str, BTreeSet<u64>> {
    let mut found: BTreeMap<_, BTreeSet<u64>> = BTreeMap::new();
    for case in cases() {
        if case.answer != Answer::Refused(refusal) {
            continue;
        }
        let settings = given(&case.question).map(Given::settings);
        let value = match (&case.question, refusal) {
            (Question::Cost { rho, .. }, _) => *rho,
            (Question::Choose { limits }, _) => Some(limits.rho),
            (_, Refusal::Rounds) => settings.map(|settings| settings.rho),
            _ => settings.map(|settings| settings.omega),
        };
        let own = found.entry(write::op(&case.question)).or_default();
        own.extend(value);
    }
    found
}

#[test]
fn refused_settings_cover_the_limits() {
    let rounds = refused(Refusal::Rounds);
    assert_eq!(rounds.len(), 5);
    for (op, found) in rounds {
        let due = [0, 13, 257, 65_537, 1 << 32, 1 << 32 | 1, u64::MAX];
        assert!(due.iter().all(|rho| found.contains(rho)), "{op}: {found:?}");
    }
    let rotations = refused(Refusal::Rotation);
    assert_eq!(rotations.len(), 3);
    for (op, found) in rotations {
        let due = [0, 12, 13, 258, 65_538, 1 << 32, 1 << 32 | 2, u64::MAX];
        assert!(
            due.iter().all(|omega| found.contains(omega)),
            "{op}: {found:?}"
        );
    }
}

/// The mixer that a line names.
fn named_mixer(case: &Case) -> Option<Mixer> {
    given(&case.question)?.settings?.mixer
}

/// The cases that go with BlaMka.
fn cases_with_blamka() -> Vec<Case> {
    let mut cases = cases();
    cases.retain(|case| named_mixer(case) == Some(Mixer::BlaMka));
    cases
}

/// The same question with another mixer named, or none.
fn with_mixer(question: &Question, mixer: Option<Mixer>) -> Question {
    let mut question = question.clone();
    match &mut question {
        Question::DeriveRecorded { given, .. }
        | Question::Derive { given, .. }
        | Question::Check { given, .. } => {
            if let Some(settings) = &mut given.settings {
                settings.mixer = mixer;
            }
        }
        _ => (),
    }
    question
}

fn counts(answer: &Answer) -> Option<Counts> {
    match answer {
        Answer::Recorded { counts, .. }
        | Answer::Derived { counts, .. }
        | Answer::Checked { counts, .. } => Some(*counts),
        _ => None,
    }
}

#[test]
fn the_mixer_is_named_from_request_107_on() {
    for case in cases().into_iter().filter(|case| !has_no_settings(case)) {
        let is_new = case.number >= FIRST_WITH_MIXER;
        assert_eq!(named_mixer(&case).is_some(), is_new, "case {}", case.number);
    }
}

/// Whether two recorded derivations end in different keys, states and matrices. Short keys may be the same.
fn differ(x: &Answer, y: &Answer) -> bool {
    let ends = |answer: &Answer| match answer {
        Answer::Recorded {
            key,
            state,
            matrix_sum,
            ..
        } => (key.clone(), *state, *matrix_sum),
        other => panic!("{other:?}"),
    };
    let ((key, state, matrix_sum), other) = (ends(x), ends(y));
    (key.len() < 8 || key != other.0) && state != other.1 && matrix_sum != other.2
}

/// With the plain mixer named an old question has its old answer. With BlaMka only the counts are the old ones.
#[test]
fn old_questions_are_asked_again_with_both_mixers() {
    let is_old = |case: &Case| case.number < FIRST_WITH_MIXER;
    let (old, new): (Vec<Case>, Vec<Case>) = cases().into_iter().partition(is_old);
    let (mut plain, mut blamka) = (0, 0);
    for case in new {
        let question = with_mixer(&case.question, None);
        let Some(earlier) = old.iter().find(|earlier| earlier.question == question) else {
            continue;
        };
        if named_mixer(&case) == Some(Mixer::Plain) {
            assert_eq!(earlier.answer, case.answer, "case {}", case.number);
            plain += 1;
        } else if let Answer::Recorded { .. } = case.answer {
            assert_eq!(counts(&earlier.answer), counts(&case.answer));
            assert!(
                differ(&earlier.answer, &case.answer),
                "case {}",
                case.number
            );
            blamka += 1;
        }
    }
    assert!(plain >= 16 && blamka >= 100, "{plain} {blamka}");
}

/// Counts and refusals are the ones that the plain mixer has, whether or not a line of the file asks for those.
#[test]
fn counts_and_refusals_do_not_depend_on_the_mixer() {
    let mut refused = 0;
    for case in cases_with_blamka() {
        let question = with_mixer(&case.question, Some(Mixer::Plain));
        let plain = run::ask(&Reference, &question).unwrap();
        assert_eq!(counts(&plain), counts(&case.answer), "case {}", case.number);
        if let Answer::Refused(_) = case.answer {
            assert_eq!(plain, case.answer, "case {}", case.number);
            refused += 1;
        }
    }
    assert!(refused >= 100, "{refused}");
}

/// Key length, password length and T of the accepted recorded derivations with BlaMka and the usual rounds and rotation.
fn usual_sizes() -> [BTreeSet<u64>; 3] {
    let mut found: [BTreeSet<u64>; 3] = Default::default();
    for case in cases_with_blamka() {
        let (Question::DeriveRecorded { given, key_len, .. }, Answer::Recorded { .. }) =
            (&case.question, &case.answer)
        else {
            continue;
        };
        let Settings { rho, omega, .. } = given.settings();
        if (rho, omega) == (Settings::USUAL.rho, Settings::USUAL.omega) {
            let values = [*key_len, given.password.count(), given.t];
            for (own, value) in found.iter_mut().zip(values) {
                own.insert(value);
            }
        }
    }
    found
}

#[test]
fn blamka_goes_with_the_limits_of_the_sizes() {
    let [keys, passwords, times] = usual_sizes();
    for key_len in [1, 95, 96, 97, 191, 192, 193, 1023, 1024] {
        assert!(keys.contains(&key_len), "key of {key_len}");
    }
    // With a salt of 8 bytes these are around one, two, three and sixteen blocks of input.
    for password_len in [
        0, 31, 32, 33, 95, 96, 97, 159, 160, 161, 991, 992, 993, 1024,
    ] {
        assert!(
            passwords.contains(&password_len),
            "password of {password_len}"
        );
    }
    assert!(times.contains(&0) && times.contains(&1));
}

#[test]
fn blamka_goes_with_every_refusal_of_the_derivations() {
    let mut found: BTreeMap<&str, BTreeSet<u8>> = BTreeMap::new();
    for case in cases_with_blamka() {
        if let Answer::Refused(refusal) = case.answer {
            let own = found.entry(write::op(&case.question)).or_default();
            own.insert(refusal.number());
        }
    }
    let plain: BTreeSet<u8> = [1, 2, 3, 4, 5, 6, 7, 10, 13, 14].into();
    let mut recorded = plain.clone();
    recorded.insert(8);
    let expected = [
        ("check", plain.clone()),
        ("derive", plain),
        ("derive_recorded", recorded),
    ];
    assert_eq!(found, expected.into());
}
