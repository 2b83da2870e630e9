//! The command line program `lyra2`.
//!
//! Standard output holds the result and nothing else; what went wrong is one line on standard error.

#![forbid(unsafe_code)]

mod book;
mod choice;
mod commands;
mod edition;
mod end_state;
mod estimate;
mod exclusive;
mod failure;
mod help;
mod hex;
mod input;
mod line;
mod memory;
mod mixer;
mod options;
mod outcome;
mod password;
mod progress;
mod quantity;
mod random;
mod reading;
mod replacement;
mod secret;
mod speed;
mod terminal;
mod timing;
mod usage;

use failure::Failure;
use lyra2_memory::Wiping;
use outcome::Outcome;
use std::alloc::System;
use std::ffi::OsString;
use std::io::Write;
use std::process::ExitCode;

/// Of a typed line the library that reads it leaves copies in memory that it frees.
#[global_allocator]
static ALLOCATOR: Wiping = Wiping(System);

fn main() -> ExitCode {
    secret::forbid_core_dumps();
    let arguments: Vec<OsString> = std::env::args_os().collect();
    let answered = commands::answer(&arguments);
    let printed = answered.and_then(|outcome| print(outcome).map_err(|failure| (None, failure)));
    printed.unwrap_or_else(|(command, failure)| {
        let name = command.map_or(String::new(), |name| format!(" {name}"));
        // With no standard error left the exit status still tells.
        let _ = writeln!(std::io::stderr(), "lyra2{name}: {failure}");
        ExitCode::from(outcome::FAILED)
    })
}

/// Writes the result. A pipe that nobody reads any more, or a full disk, is a failure like any other.
fn print(outcome: Outcome) -> Result<ExitCode, Failure> {
    let mut output = std::io::stdout().lock();
    output
        .write_all(&outcome.text)
        .and_then(|()| output.flush())
        .map_err(|error| Failure::from_io("standard output", error))?;
    Ok(ExitCode::from(outcome.status))
}
