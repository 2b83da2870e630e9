//! Holds the proved library against the second program on random inputs, for runs longer than the tests.
//!
//! `compare-random SEED COUNT` makes the comparisons of COUNT seeds from SEED on: derivations with one sponge and with several lanes,
//! login lines, choices of costs and books of accounts. A line every ten seconds says how far it is and from which seed to go on; a failure names the seed that repeats it.

#![forbid(unsafe_code)]

use derivation_link::compare::compare;
use derivation_link::Proved;
use lyra2_reference::Refusal;
use std::panic::catch_unwind;
use std::process::ExitCode;
use std::time::{Duration, Instant};

const USAGE: &str = "usage: compare-random SEED COUNT";
/// The time between two lines of progress.
const PAUSE: Duration = Duration::from_secs(10);

fn main() -> ExitCode {
    let arguments: Vec<String> = std::env::args().skip(1).collect();
    let numbers: Vec<u64> = arguments.iter().flat_map(|text| text.parse()).collect();
    let (2, [seed, count]) = (arguments.len(), &numbers[..]) else {
        eprintln!("{USAGE}");
        return ExitCode::FAILURE;
    };
    match run(*seed, *count) {
        Ok(sentence) => {
            println!("{sentence}");
            ExitCode::SUCCESS
        }
        Err(sentence) => {
            eprintln!("{sentence}");
            ExitCode::FAILURE
        }
    }
}

fn run(first_seed: u64, count: u64) -> Result<String, String> {
    let began = Instant::now();
    let mut next_line = PAUSE;
    let (mut accepted, mut refused) = (0u64, 0u64);
    for done in 0..count {
        let seed = first_seed.wrapping_add(done);
        if began.elapsed() >= next_line {
            next_line += PAUSE;
            let rate = rate(done, began);
            eprintln!("{done} of {count} compared, {rate} a second; the next seed is {seed}");
        }
        for call in compare_seed(seed)? {
            if call.is_ok() {
                accepted += 1;
            } else {
                refused += 1;
            }
        }
    }
    let rate = rate(count, began);
    Ok(format!(
        "{count} seeds from {first_seed}: {accepted} accepted and {refused} refused calls agree, {rate} a second"
    ))
}

/// Makes the comparison of a seed and tells what its calls answered: both derivations, the login lines, the choices and those on
/// books. Where the library breaks a promise that its caller asserts, that panics, and the seed has to be named all the same.
fn compare_seed(seed: u64) -> Result<Vec<Result<(), Refusal>>, String> {
    let repeat = |what: &str| format!("{what}; `compare-random {seed} 1` repeats it");
    match catch_unwind(|| compare(&Proved, seed)) {
        Ok(Ok(compared)) => {
            let mut answers = compared.lines;
            answers.push(compared.answer.map(drop));
            answers.extend(compared.choices.iter().map(|choice| choice.map(drop)));
            answers.extend(compared.books);
            answers.push(compared.lanes.answer.map(drop));
            Ok(answers)
        }
        Ok(Err(what)) => Err(repeat(&what)),
        Err(_) => Err(repeat("the call broke an assertion")),
    }
}

fn rate(done: u64, began: Instant) -> u64 {
    (done as f64 / began.elapsed().as_secs_f64()) as u64
}
