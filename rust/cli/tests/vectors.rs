//! The vectors file put to the program, wherever the command line can ask the question.
//!
//! The program lends buffers that fit, so it is never refused with 7, 8 or 12; those lines and the eight that lend
//! 400 MB are left out. It writes no line and no account but of a key that it has derived, and it looks at a book before it
//! asks for a password.

mod common;

use common::end_state::{mixer_number, EndState};
use common::{hex, lyra2, Run, TemporaryFile};
use lyra2_reference::vectors::write::mixer_name;
use lyra2_reference::vectors::{
    checksum, read, Answer, Bytes, Case, Given, LanesGiven, LentBook, NamedSettings, Question,
};
use lyra2_reference::{book_find, check, Counts, Inputs, Parameters, Refusal, Settings};

const FILE: &str = concat!(env!("CARGO_MANIFEST_DIR"), "/../../vectors/lyra2.txt");
/// A matrix of more words belongs to the lines that lend 400 MB.
const MANY_WORDS: u64 = 1 << 24;

/// The lines of the file that can be asked and are wanted.
fn cases(wanted: impl Fn(&Question) -> bool) -> Vec<Case> {
    let file = std::fs::read(FILE).expect("the repository has its vectors file");
    let lines = read(&file).expect("the vectors file can be read");
    let cases = lines.into_iter().map(|(_, case)| case);
    cases
        .filter(|case| wanted(&case.question) && can_be_asked(case))
        .collect()
}

fn can_be_asked(case: &Case) -> bool {
    let short = [
        Refusal::MatrixWords,
        Refusal::RecordWords,
        Refusal::OutputTooShort,
    ]
    .map(Answer::Refused);
    let many_words = match &case.question {
        Question::DeriveRecorded { given, .. } => given.matrix_words > MANY_WORDS,
        _ => false,
    };
    !short.contains(&case.answer) && !many_words
}

/// Runs a command on the inputs of a case. The settings are given where the line has them.
fn run_on(command: &str, given: &Given, number: u64, others: &[String]) -> Run {
    let mut arguments = vec![command.to_string()];
    arguments.extend(costs([given.t, given.r, given.c]));
    if let Some(NamedSettings { rho, omega, mixer }) = given.settings {
        arguments.push(format!("--rounds={rho}"));
        arguments.push(format!("--rotation={omega}"));
        arguments.extend(mixer.map(|mixer| format!("--mixer={}", mixer_name(mixer))));
    }
    arguments.extend_from_slice(others);
    run_with(arguments, [&given.password, &given.salt], number)
}

/// The same with lanes.
fn run_on_lanes(command: &str, given: &LanesGiven, number: u64, other: String) -> Run {
    let mut arguments = vec![command.to_string(), format!("--lanes={}", given.p), other];
    arguments.extend(costs([given.t, given.r, given.c]));
    run_with(arguments, [&given.password, &given.salt], number)
}

fn costs([t, r, c]: [u64; 3]) -> [String; 3] {
    [
        format!("--time={t}"),
        format!("--rows={r}"),
        format!("--columns={c}"),
    ]
}

/// Runs the program with a password by standard input or by a file, and a salt by the command line or by a file, in
/// turn.
fn run_with(mut arguments: Vec<String>, [password, salt]: [&Bytes; 2], number: u64) -> Run {
    let (mut password, salt) = (password.to_vec(), salt.to_vec());
    let password_file = TemporaryFile::holding(&password);
    let salt_file = TemporaryFile::holding(&salt);
    if number.is_multiple_of(2) {
        arguments.push(format!("--password-file={}", password_file.name()));
    } else {
        password.push(b'\n');
    }
    if number.is_multiple_of(3) || salt.len() > 100 {
        arguments.push(format!("--salt-file={}", salt_file.name()));
    } else {
        arguments.push(format!("--salt={}", hex(&salt)));
    }
    lyra2(&arguments, &password)
}

/// Whether the run was refused as the answer has it; false if the answer is no refusal.
fn is_refused(run: &Run, answer: &Answer, number: u64) -> bool {
    let Answer::Refused(refusal) = answer else {
        return false;
    };
    assert_eq!(
        (run.status, run.output.as_str()),
        (Some(2), ""),
        "case {number}"
    );
    let start = format!(": refused {}: ", refusal.number());
    assert!(run.error.contains(&start), "case {number}: {}", run.error);
    true
}

/// Requires so many cases, and so many of them with settings of their own.
#[track_caller]
fn assert_many(cases: &[Case], least: usize, least_with_settings: usize) {
    let has_settings = |case: &&Case| match &case.question {
        Question::DeriveRecorded { given, .. }
        | Question::Derive { given, .. }
        | Question::Check { given, .. } => given.settings.is_some(),
        Question::Cost { rho, .. } => rho.is_some(),
        _ => false,
    };
    let with_settings = cases.iter().filter(has_settings).count();
    let counts = (cases.len(), with_settings);
    assert!(
        counts.0 >= least && counts.1 >= least_with_settings,
        "{counts:?}"
    );
}

#[test]
fn plain_derivations() {
    let is_plain = |question: &Question| matches!(question, Question::Derive { .. });
    let cases = cases(is_plain);
    for case in &cases {
        let Question::Derive { given, key_len } = &case.question else {
            continue;
        };
        let run = run_on(
            "derive",
            given,
            case.number,
            &[format!("--key-length={key_len}")],
        );
        if let Answer::Derived { key, .. } = &case.answer {
            assert_eq!(run.result(), hex(key) + "\n", "case {}", case.number);
        } else {
            assert!(is_refused(&run, &case.answer, case.number));
        }
    }
    assert_many(&cases, 350, 120);
}

#[test]
fn recorded_derivations() {
    let is_recorded = |question: &Question| matches!(question, Question::DeriveRecorded { .. });
    let cases = cases(is_recorded);
    for case in &cases {
        let Question::DeriveRecorded { given, key_len, .. } = &case.question else {
            continue;
        };
        let length = format!("--key-length={key_len}");
        let file = TemporaryFile::new();
        let output = format!("--output={}", file.name());
        let run = run_on("trial", given, case.number, &[length.clone(), output]);
        if is_refused(&run, &case.answer, case.number) {
            assert!(!file.path().exists(), "case {}", case.number);
            continue;
        }
        run.result();
        assert_end_state(case, &EndState::read(&file.bytes()));
        if let Answer::Recorded { key, .. } = &case.answer {
            let run = run_on("derive", given, case.number + 1, &[length]);
            assert_eq!(run.result(), hex(key) + "\n", "case {}", case.number);
        }
    }
    assert_many(&cases, 2500, 650);
}

fn assert_end_state(case: &Case, found: &EndState) {
    let Answer::Recorded {
        state,
        counts,
        matrix_sum,
        record_sum,
        in_full,
        ..
    } = &case.answer
    else {
        panic!("case {} has another operation's answer", case.number);
    };
    let Question::DeriveRecorded { given, .. } = &case.question else {
        panic!("case {} has another operation's question", case.number);
    };
    let Settings { rho, omega, mixer } = given.settings();
    assert_eq!(
        (found.rho, found.omega, found.mixer),
        (rho, omega, mixer_number(mixer))
    );
    assert_eq!(found.state, state, "case {}", case.number);
    assert_eq!(found.counts, listed(counts), "case {}", case.number);
    let found_record = found.packed_record();
    let sums = [&found.matrix, &found_record].map(|words| checksum::of_words(words));
    assert_eq!(sums, [*matrix_sum, *record_sum], "case {}", case.number);
    if let Some((matrix, record)) = in_full {
        assert_eq!((&found.matrix, &found_record), (matrix, record));
    }
}

fn listed(counts: &Counts) -> [u64; 3] {
    [counts.full, counts.reduced, counts.rounds]
}

#[test]
fn checks() {
    let cases = cases(|question| matches!(question, Question::Check { .. }));
    for case in &cases {
        let Question::Check { given, stored } = &case.question else {
            continue;
        };
        let (_file, key) = stored_key(stored, case.number);
        let run = run_on("check", given, case.number, &[key]);
        assert_answered(&run, case);
    }
    assert_many(&cases, 460, 140);
}

/// The option with a stored key, by the command line or by a file, in turn, and the file.
fn stored_key(stored: &Bytes, number: u64) -> (TemporaryFile, String) {
    let stored = hex(&stored.to_vec());
    let file = TemporaryFile::holding(stored.as_bytes());
    let option = if number % 5 < 2 || stored.len() > 10_000 {
        format!("--key-file={}", file.name())
    } else {
        format!("--key={stored}")
    };
    (file, option)
}

/// Requires the answer of a check, or its refusal.
#[track_caller]
fn assert_answered(run: &Run, case: &Case) {
    if let Answer::Checked { matches, .. } = case.answer {
        let (status, output) = if matches { (0, "yes\n") } else { (1, "no\n") };
        assert_eq!(run.status, Some(status), "case {}", case.number);
        assert_eq!((run.output.as_str(), run.error.as_str()), (output, ""));
    } else {
        assert!(is_refused(run, &case.answer, case.number));
    }
}

#[test]
fn cost_questions() {
    let cases = cases(|question| matches!(question, Question::Cost { .. }));
    for case in &cases {
        let Question::Cost { given, rho } = &case.question else {
            continue;
        };
        let option = rho.map(|rho| format!("--rounds={rho}"));
        let bytes = given.record_words().saturating_mul(8);
        let record = format!("record bytes: {bytes}\n");
        assert_cost(case, given, option, &record);
    }
    assert_many(&cases, 280, 40);
}

/// Requires the lines of a cost, the record's among them, or its refusal.
#[track_caller]
fn assert_cost(case: &Case, given: &Parameters, option: Option<String>, record: &str) {
    let mut arguments = vec![
        "cost".to_string(),
        format!("--key-length={}", given.key_len),
        format!("--password-length={}", given.password_len),
        format!("--salt-length={}", given.salt_len),
    ];
    arguments.extend(costs([given.t, given.r, given.c]));
    arguments.extend(option);
    let run = lyra2(&arguments, b"");
    if let Answer::Cost(counts) = &case.answer {
        let [full, reduced, rounds] = listed(counts);
        let start = format!(
            "full calls: {full}\nreduced calls: {reduced}\nrounds: {rounds}\n\
             matrix bytes: {}\n{record}expected seconds: ",
            8 * given.matrix_words(),
        );
        let output = run.result();
        assert!(output.starts_with(&start), "case {}: {output}", case.number);
    } else {
        assert!(is_refused(&run, &case.answer, case.number));
    }
}

#[test]
fn derivations_with_lanes() {
    let cases = cases(|question| matches!(question, Question::LanesDerive { .. }));
    for case in &cases {
        let Question::LanesDerive { given, key_len } = &case.question else {
            continue;
        };
        let length = format!("--key-length={key_len}");
        let run = run_on_lanes("derive", given, case.number, length);
        if let Answer::Derived { key, .. } = &case.answer {
            assert_eq!(run.result(), hex(key) + "\n", "case {}", case.number);
        } else {
            assert!(is_refused(&run, &case.answer, case.number));
        }
    }
    assert_some(&cases, 150, 40);
}

#[test]
fn checks_with_lanes() {
    let cases = cases(|question| matches!(question, Question::LanesCheck { .. }));
    for case in &cases {
        let Question::LanesCheck { given, stored } = &case.question else {
            continue;
        };
        let (_file, key) = stored_key(stored, case.number);
        assert_answered(&run_on_lanes("check", given, case.number, key), case);
    }
    assert_some(&cases, 60, 40);
}

#[test]
fn cost_questions_with_lanes() {
    let cases = cases(|question| matches!(question, Question::LanesCost { .. }));
    for case in &cases {
        let Question::LanesCost { given, p } = &case.question else {
            continue;
        };
        assert_cost(case, given, Some(format!("--lanes={p}")), "");
    }
    assert_some(&cases, 40, 100);
}

/// Requires so many cases that are accepted and so many that are refused.
#[track_caller]
fn assert_some(cases: &[Case], accepted: usize, refused: usize) {
    let is_refused = |case: &&Case| matches!(case.answer, Answer::Refused(_));
    let found = cases.iter().filter(is_refused).count();
    let counts = (cases.len() - found, found);
    assert!(counts.0 >= accepted && counts.1 >= refused, "{counts:?}");
}

#[test]
fn walk_questions() {
    let cases = cases(|question| matches!(question, Question::Walk { .. }));
    for case in &cases {
        let Question::Walk { r, row0 } = case.question else {
            continue;
        };
        let run = lyra2(&["walk".to_string(), r.to_string(), row0.to_string()], b"");
        if let Answer::Walk { row1 } = case.answer {
            assert_eq!(run.result(), format!("{row1}\n"), "case {}", case.number);
        } else {
            assert!(is_refused(&run, &case.answer, case.number));
        }
    }
    assert!(cases.len() >= 220, "{}", cases.len());
}

/// A login whose line takes more reduced calls is left out, since nothing is asked of its derivation here.
const MANY_CALLS: u64 = 100_000;

/// Each line is in a file with a newline behind it, so that it is put to the library as it is.
#[test]
fn lines_to_log_in_with() {
    let cases = cases(|question| matches!(question, Question::LineRead { .. }));
    let (mut refused, mut answered) = (0, 0);
    for case in &cases {
        let Question::LineRead { line, .. } = &case.question else {
            continue;
        };
        let file = TemporaryFile::holding(&[&line[..], b"\n"].concat());
        let login = || lyra2(&["login", "--line-file", file.name()], b"pass");
        let Answer::LineRead(values) = &case.answer else {
            assert!(is_refused(&login(), &case.answer, case.number));
            refused += 1;
            continue;
        };
        if values.r * values.c * (values.t + 1) > MANY_CALLS {
            continue;
        }
        let inputs = Inputs {
            password: b"pass",
            salt: &values.salt.to_vec(),
            t: values.t,
            r: values.r,
            c: values.c,
            settings: Settings::USUAL,
        };
        let mut matrix = vec![0; (12 * values.r * values.c) as usize];
        let checked = check(&inputs, &values.key.to_vec(), &mut matrix);
        let due = match checked.expect("no check refuses").matches {
            true => (Some(0), "yes\n"),
            false => (Some(1), "no\n"),
        };
        let run = login();
        let found = (run.status, run.output.as_str());
        assert_eq!(found, due, "case {}", case.number);
        answered += 1;
    }
    assert!(refused >= 300 && answered >= 50, "{refused} {answered}");
}

/// A file of the used bytes; None where there are not as many.
fn file_of(book: &LentBook) -> Option<TemporaryFile> {
    let used = book.bytes.get(..usize::try_from(book.used).ok()?)?;
    Some(TemporaryFile::holding(used))
}

#[test]
fn accounts_to_remove() {
    let cases = cases(|question| matches!(question, Question::BookRemove { .. }));
    let (mut refused, mut removed) = (0, 0);
    for case in &cases {
        let Question::BookRemove { book, number } = &case.question else {
            continue;
        };
        let Some(file) = file_of(book) else {
            continue;
        };
        let before = file.bytes();
        let of_book = [
            format!("--book={}", file.name()),
            format!("--number={number}"),
        ];
        let arguments = [&["book".to_string(), "remove".to_string()], &of_book[..]].concat();
        let run = lyra2(&arguments, b"");
        if let Answer::Changed {
            used_after,
            book_after,
        } = &case.answer
        {
            assert_eq!(run.result(), format!("account {number} removed\n"));
            let due = &book_after[..*used_after as usize];
            assert_eq!(file.bytes(), due, "case {}", case.number);
            removed += 1;
        } else {
            assert!(is_refused(&run, &case.answer, case.number));
            assert_eq!(file.bytes(), before, "case {}", case.number);
            refused += 1;
        }
    }
    assert!(refused >= 30 && removed >= 30, "{refused} {removed}");
}

/// A password that is too long is refused after the book is looked at, so lines that are refused for it are left out
/// unless nothing is wrong with the book.
#[test]
fn accounts_to_check() {
    let cases = cases(|question| matches!(question, Question::BookCheck { .. }));
    let (mut refused, mut answered) = (0, 0);
    for case in &cases {
        let Question::BookCheck {
            password,
            book,
            number,
            ..
        } = &case.question
        else {
            continue;
        };
        let Some(file) = file_of(book) else {
            continue;
        };
        if case.answer == Answer::Refused(Refusal::PasswordLength)
            && book_find(&book.bytes, book.used, *number).is_err()
        {
            continue;
        }
        let password = TemporaryFile::holding(&password.to_vec());
        let arguments = [
            "book".to_string(),
            "check".to_string(),
            format!("--book={}", file.name()),
            format!("--number={number}"),
            format!("--password-file={}", password.name()),
        ];
        let run = lyra2(&arguments, b"");
        if let Answer::Checked { matches, .. } = case.answer {
            let (status, output) = if matches { (0, "yes\n") } else { (1, "no\n") };
            let found = (run.status, run.output.as_str(), run.error.as_str());
            assert_eq!(found, (Some(status), output, ""), "case {}", case.number);
            answered += 1;
        } else {
            assert!(is_refused(&run, &case.answer, case.number));
            refused += 1;
        }
    }
    assert!(refused >= 15 && answered >= 40, "{refused} {answered}");
}
