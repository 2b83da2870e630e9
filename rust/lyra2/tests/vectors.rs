//! The vectors file put to the safe crate.
//!
//! The runs of the second program's package look at the lent buffers too, so a refusal that changed one, or a
//! word written past the used ones, fails here as a wrong answer does.

mod common;

use common::{lanes, settings, size};
use lyra2::{Lanes, Lengths, Parameters};
use lyra2_reference::vectors::{read, run, Case, Coverage, Question, Subject};
use lyra2_reference::{
    Checked, Choice, Counts, Inputs, LaneInputs, LineParts, LineValues, Recorded, Refusal,
};

const FILE: &str = concat!(env!("CARGO_MANIFEST_DIR"), "/../../vectors/lyra2.txt");
/// A matrix of more words belongs to the lines that lend 400 MB, which derivation-link's tests run.
const MANY_WORDS: u64 = 1 << 24;

struct Safe;

fn refusal(refusal: lyra2::Refusal) -> Refusal {
    Refusal::from_number(refusal.number().into()).expect("both packages have the same numbers")
}

fn counts(counts: lyra2::Counts) -> Counts {
    Counts {
        full: counts.full,
        reduced: counts.reduced,
        rounds: counts.rounds,
    }
}

fn checked(answer: lyra2::Checked) -> Checked {
    Checked {
        matches: answer.same,
        counts: counts(answer.counts),
    }
}

fn lengths([key, password, salt]: [u64; 3]) -> Lengths {
    Lengths {
        key: size(key),
        password: size(password),
        salt: size(salt),
    }
}

impl Subject for Safe {
    fn derive_recorded(
        &self,
        inputs: &Inputs,
        key: &mut [u8],
        matrix: &mut [u64],
        record: &mut [u64],
    ) -> Option<Result<Recorded, Refusal>> {
        let (password, salt) = (inputs.password, inputs.salt);
        let answer = lyra2::derive_recorded(password, salt, settings(inputs), key, matrix, record);
        let recorded = |answer: lyra2::Recorded| Recorded {
            state: answer.state,
            counts: counts(answer.counts),
        };
        Some(answer.map(recorded).map_err(refusal))
    }

    fn derive(
        &self,
        inputs: &Inputs,
        key: &mut [u8],
        matrix: &mut [u64],
    ) -> Result<Counts, Refusal> {
        let (password, salt) = (inputs.password, inputs.salt);
        let answer = lyra2::derive(password, salt, settings(inputs), key, matrix);
        answer.map(counts).map_err(refusal)
    }

    fn check(
        &self,
        inputs: &Inputs,
        stored: &[u8],
        matrix: &mut [u64],
    ) -> Result<Checked, Refusal> {
        let (password, salt) = (inputs.password, inputs.salt);
        let answer = lyra2::check(password, salt, settings(inputs), stored, matrix);
        answer.map(checked).map_err(refusal)
    }

    fn cost(&self, given: &lyra2_reference::Parameters, rho: u64) -> Result<Counts, Refusal> {
        let lengths = lengths([given.key_len, given.password_len, given.salt_len]);
        let parameters = Parameters {
            time: size(given.t),
            rows: size(given.r),
            columns: size(given.c),
        };
        lyra2::cost(lengths, parameters, size(rho))
            .map(counts)
            .map_err(refusal)
    }

    fn choose(&self, given: &lyra2_reference::Limits) -> Option<Result<Choice, Refusal>> {
        let lengths = lengths([given.key_len, given.password_len, given.salt_len]);
        let limits = lyra2::Limits {
            words: size(given.matrix_words),
            budget: given.budget,
            rounds: size(given.rho),
            tries: size(given.tries),
        };
        let choice = |choice: lyra2::Choice| Choice {
            t: choice.parameters.time as u64,
            r: choice.parameters.rows as u64,
            c: choice.parameters.columns as u64,
            shortfall: choice.shortfall as u64,
        };
        Some(lyra2::choose(lengths, limits).map(choice).map_err(refusal))
    }

    fn walk(&self, r: u64, row0: u64) -> Result<u64, Refusal> {
        lyra2::walk(size(r), size(row0))
            .map(|row1| row1 as u64)
            .map_err(refusal)
    }

    fn line_read(
        &self,
        line: &[u8],
        salt: &mut [u8],
        key: &mut [u8],
    ) -> Option<Result<LineValues, Refusal>> {
        let values = |line: lyra2::Line| LineValues {
            t: line.parameters.time as u64,
            r: line.parameters.rows as u64,
            c: line.parameters.columns as u64,
            salt_len: line.salt.len() as u64,
            key_len: line.key.len() as u64,
        };
        let answer = lyra2::read_line(line, salt, key);
        Some(answer.map(values).map_err(refusal))
    }

    fn line_write(&self, parts: &LineParts, line: &mut [u8]) -> Option<Result<u64, Refusal>> {
        let parameters = Parameters {
            time: size(parts.t),
            rows: size(parts.r),
            columns: size(parts.c),
        };
        let answer = lyra2::write_line(parameters, parts.salt, parts.key, line);
        Some(answer.map(|length| length as u64).map_err(refusal))
    }

    fn lanes_derive(
        &self,
        inputs: &LaneInputs,
        key: &mut [u8],
        matrix: &mut [u64],
    ) -> Option<Result<Counts, Refusal>> {
        let answer = lanes(inputs).derive(inputs.password, inputs.salt, key, matrix);
        Some(answer.map(counts).map_err(refusal))
    }

    fn lanes_check(
        &self,
        inputs: &LaneInputs,
        stored: &[u8],
        matrix: &mut [u64],
    ) -> Option<Result<Checked, Refusal>> {
        let answer = lanes(inputs).check(inputs.password, inputs.salt, stored, matrix);
        Some(answer.map(checked).map_err(refusal))
    }

    fn lanes_cost(
        &self,
        given: &lyra2_reference::Parameters,
        p: u64,
    ) -> Option<Result<Counts, Refusal>> {
        let lanes = Lanes {
            parameters: Parameters {
                time: size(given.t),
                rows: size(given.r),
                columns: size(given.c),
            },
            count: size(p),
        };
        let lengths = lengths([given.key_len, given.password_len, given.salt_len]);
        Some(lanes.cost(lengths).map(counts).map_err(refusal))
    }
}

fn is_wanted(case: &Case) -> bool {
    match &case.question {
        Question::DeriveRecorded { given, .. }
        | Question::Derive { given, .. }
        | Question::Check { given, .. } => given.matrix_words <= MANY_WORDS,
        Question::LanesDerive { given, .. } | Question::LanesCheck { given, .. } => {
            given.matrix_words <= MANY_WORDS
        }
        Question::Cost { .. }
        | Question::LanesCost { .. }
        | Question::Walk { .. }
        | Question::LineRead { .. }
        | Question::LineWrite { .. }
        | Question::Choose { .. } => true,
        // The walk program has a test of its own.
        Question::WalkProgram { .. } => false,
        // The lines about books are those of vectors_books.rs.
        Question::BookFind { .. }
        | Question::BookAdd { .. }
        | Question::BookRemove { .. }
        | Question::BookCheck { .. }
        | Question::BookAccount { .. } => false,
    }
}

#[test]
fn every_line_but_the_largest_matrices_and_the_walk_program() {
    let file = std::fs::read(FILE).expect("the repository has its vectors file");
    let mut lines = read(&file).expect("the vectors file can be read");
    let all = lines.len();
    lines.retain(|(_, case)| is_wanted(case));
    for (line, case) in &lines {
        let outcome = run::check_case(&Safe, case);
        assert_eq!(outcome, Ok(Coverage::Whole), "line {line}");
    }
    assert_eq!(all - lines.len(), 77 + 8 + 807);
    assert!(lines.len() >= 6600, "{}", lines.len());
}

/// The crate's documentation shows the first bytes of this key.
#[test]
fn the_documented_key_is_the_second_programs() {
    let inputs = Inputs {
        password: b"password",
        salt: b"saltsalt",
        t: 1,
        r: 64,
        c: 16,
        settings: lyra2_reference::Settings::USUAL,
    };
    let mut key = [0; 32];
    lyra2_reference::derive(&inputs, &mut key, &mut [0; 12 * 64 * 16]).expect("no check refuses");
    assert_eq!(key[..4], [0xf0, 0x66, 0xef, 0xe4]);
}
