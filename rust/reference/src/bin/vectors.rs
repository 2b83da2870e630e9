//! Writes the vectors file, checks one against the reference program, and runs random questions.

#![forbid(unsafe_code)]

use lyra2_reference::vectors::random::{self, Random};
use lyra2_reference::vectors::{
    chosen_text, random_book, random_choice, random_lanes, random_line, read, run, write, Answer,
    Reference,
};
use std::ffi::OsString;
use std::fs::OpenOptions;
use std::io::Write;
use std::path::Path;
use std::process::ExitCode;

const USAGE: &str = "usage: vectors write FILE | vectors check FILE | vectors random SEED COUNT";

fn main() -> ExitCode {
    let arguments: Vec<OsString> = std::env::args_os().skip(1).collect();
    match carry_out(&arguments) {
        Ok(sentence) => {
            // Nothing is left to be done about a closed standard output.
            let _ = writeln!(std::io::stdout(), "{sentence}");
            ExitCode::SUCCESS
        }
        Err(sentence) => {
            let _ = writeln!(std::io::stderr(), "{sentence}");
            ExitCode::FAILURE
        }
    }
}

fn carry_out(arguments: &[OsString]) -> Result<String, String> {
    let command = arguments.first().and_then(|argument| argument.to_str());
    match (command, &arguments[1.min(arguments.len())..]) {
        (Some("write"), [file]) => write_file(Path::new(file)),
        (Some("check"), [file]) => check_file(Path::new(file)),
        (Some("random"), [seed, count]) => {
            run_random(number("SEED", seed)?, number("COUNT", count)?)
        }
        _ => Err(USAGE.to_string()),
    }
}

fn number(name: &str, argument: &OsString) -> Result<u64, String> {
    let value = argument.to_str().and_then(|text| text.parse().ok());
    value.ok_or_else(|| {
        format!(
            "{name}: {argument:?} is not a number from 0 to {}",
            u64::MAX
        )
    })
}

fn write_file(file: &Path) -> Result<String, String> {
    let at_file = |error: std::io::Error| format!("{}: {error}", file.display());
    // Tried first, and without emptying the file: a bad name shows before the work, not after it.
    let mut attempt = OpenOptions::new();
    attempt.write(true).create(true).truncate(false);
    attempt.open(file).map_err(at_file)?;
    let text = chosen_text()?;
    std::fs::write(file, &text).map_err(at_file)?;
    let cases = text.lines().filter(|line| !line.starts_with('#')).count();
    Ok(format!("{}: {cases} cases written", file.display()))
}

fn check_file(file: &Path) -> Result<String, String> {
    let name = file.display();
    let bytes = std::fs::read(file).map_err(|error| format!("{name}: {error}"))?;
    let cases = read(&bytes).map_err(|problem| format!("{name}:{problem}"))?;
    for (line, case) in &cases {
        run::check_case(&Reference, case)
            .map_err(|what| format!("{name}:{line}: case {}: {what}", case.number))?;
    }
    let refused = |answer: &Answer| matches!(answer, Answer::Refused(_));
    let refusals = cases.iter().filter(|(_, case)| refused(&case.answer));
    let refusals = refusals.count();
    let cases = cases.len();
    Ok(format!(
        "{name}: all hold (cases: {cases}, refusals: {refusals})"
    ))
}

/// Puts random questions to all operations; the answers must agree with one another.
fn run_random(seed: u64, count: u64) -> Result<String, String> {
    let mut random = Random::new(seed);
    let (mut accepted, mut refused) = (0u64, 0u64);
    for place in 1..=count {
        // Derivations, login lines, choices of costs, books and lanes in turn.
        let question = match place % 5 {
            1 => random::question(&mut random),
            2 => random_line::question(&mut random),
            3 => random_choice::question(&mut random),
            4 => random_book::question(&mut random),
            _ => random_lanes::question(&mut random),
        };
        let outcome = run::ask(&Reference, &question).and_then(|answer| {
            run::agree(&Reference, &question, &answer)?;
            Ok(answer)
        });
        match outcome {
            Ok(Answer::Refused(_)) => refused += 1,
            Ok(_) => accepted += 1,
            Err(what) => {
                let op = write::op(&question);
                return Err(format!("seed {seed}, question {place}, {op}: {what}"));
            }
        }
    }
    Ok(format!(
        "seed {seed}: {accepted} accepted and {refused} refused questions agree"
    ))
}
