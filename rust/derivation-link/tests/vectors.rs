//! The vectors file put to the proved library.
//!
//! A line of the recorded derivation is also put to the plain derivation, the check and the cost question, which
//! share its key and counts; the first two have to leave zeros where it has its end matrix.

use derivation_link::Proved;
use lyra2_reference::vectors::{read, run, write, Answer, Case, Coverage, Question};
use lyra2_reference::Refusal;

const FILE: &str = concat!(env!("CARGO_MANIFEST_DIR"), "/../../vectors/lyra2.txt");
/// A matrix of more words belongs to the lines that lend 400 MB.
const MANY_WORDS: u64 = 1 << 24;

fn cases() -> Vec<(usize, Case)> {
    let file = std::fs::read(FILE).expect("the repository has its vectors file");
    read(&file).expect("the vectors file can be read")
}

/// Runs the lines that are wanted, each whole, and returns how many there are. No test wants the lines of
/// the walk program, which tests/walk.sh runs.
fn run_lines(wanted: impl Fn(&Case) -> bool) -> usize {
    let mut lines = cases();
    lines.retain(|(_, case)| wanted(case));
    for (line, case) in &lines {
        let outcome = run::check_case(&Proved, case);
        assert_eq!(outcome, Ok(Coverage::Whole), "line {line}");
    }
    lines.len()
}

fn lends_many_words(case: &Case) -> bool {
    match &case.question {
        Question::DeriveRecorded { given, .. }
        | Question::Derive { given, .. }
        | Question::Check { given, .. } => given.matrix_words > MANY_WORDS,
        _ => false,
    }
}

/// A recorded derivation that lends no 400 MB.
fn is_recorded(case: &Case) -> bool {
    matches!(case.question, Question::DeriveRecorded { .. }) && !lends_many_words(case)
}

fn is_listed_in_full(case: &Case) -> bool {
    matches!(&case.answer, Answer::Recorded { in_full, .. } if in_full.is_some())
}

fn has_a_short_record(case: &Case) -> bool {
    case.answer == Answer::Refused(Refusal::RecordWords)
}

#[test]
fn recorded_derivations() {
    let wanted =
        |case: &Case| is_recorded(case) && !is_listed_in_full(case) && !has_a_short_record(case);
    assert!(run_lines(wanted) >= 1500);
}

#[test]
fn recorded_derivations_whose_matrix_and_record_are_listed() {
    assert!(run_lines(is_listed_in_full) >= 50);
}

#[test]
fn recorded_derivations_with_a_short_record() {
    let wanted = |case: &Case| is_recorded(case) && has_a_short_record(case);
    assert!(run_lines(wanted) >= 60);
}

/// Three lines derive; two are refused for their matrices, and three for their records. All are lent 400 MB.
#[test]
fn recorded_derivations_with_the_largest_matrix() {
    assert_eq!(run_lines(lends_many_words), 8);
}

#[test]
fn plain_derivations() {
    let wanted = |case: &Case| matches!(case.question, Question::Derive { .. });
    assert!(run_lines(wanted) >= 100);
}

#[test]
fn checks() {
    let wanted = |case: &Case| matches!(case.question, Question::Check { .. });
    assert!(run_lines(wanted) >= 160);
}

#[test]
fn cost_questions() {
    let wanted = |case: &Case| matches!(case.question, Question::Cost { .. });
    assert!(run_lines(wanted) >= 120);
}

#[test]
fn login_lines() {
    let is_read = |case: &Case| matches!(case.question, Question::LineRead { .. });
    assert!(run_lines(is_read) >= 700);
    let is_written = |case: &Case| matches!(case.question, Question::LineWrite { .. });
    assert!(run_lines(is_written) >= 200);
}

#[test]
fn choices() {
    let wanted = |case: &Case| matches!(case.question, Question::Choose { .. });
    assert!(run_lines(wanted) >= 500);
}

#[test]
fn books() {
    for (op, least) in [
        ("book_find", 200),
        ("book_add", 200),
        ("book_remove", 60),
        ("book_check", 60),
        ("book_account", 100),
    ] {
        let count = run_lines(|case| write::op(&case.question) == op);
        assert!(count >= least, "{op}: {count}");
    }
}

#[test]
fn lanes() {
    for (op, least) in [
        ("lanes_derive", 350),
        ("lanes_check", 180),
        ("lanes_cost", 220),
    ] {
        let count = run_lines(|case| write::op(&case.question) == op);
        assert!(count >= least, "{op}: {count}");
    }
}

#[test]
fn walk_questions() {
    let wanted = |case: &Case| matches!(case.question, Question::Walk { .. });
    assert!(run_lines(wanted) >= 220);
}
