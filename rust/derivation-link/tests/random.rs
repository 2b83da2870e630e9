//! Random inputs: the proved library against the second program, in lent buffers between guards.

use derivation_link::compare::compare;
use derivation_link::lanes::ComparedLanes;
use derivation_link::Proved;
use lyra2_reference::vectors::random::{question, Random};
use lyra2_reference::vectors::{run, Case, Coverage, Reference};
use lyra2_reference::{Choice, Mixer, Refusal, Settings};
use std::collections::BTreeSet;

const FIRST_SEED: u64 = 0x4c79_7261_3200;
const COMPARISONS: u64 = 20_000;
const QUESTIONS: u64 = 3_000;

/// Lengths of key, password and salt, time costs and settings of the accepted calls, and the refusals of the others.
#[derive(Default)]
struct Met {
    keys: BTreeSet<u64>,
    passwords: BTreeSet<u64>,
    salts: BTreeSet<u64>,
    times: BTreeSet<u64>,
    /// ρ, ω, and whether the mixer is BlaMka.
    settings: BTreeSet<(u64, u64, bool)>,
    /// The number, and whether the mixer is BlaMka.
    refusals: BTreeSet<(u8, bool)>,
    /// Of login lines; 0 is an accepted one.
    lines: BTreeSet<u8>,
    choices: MetChoices,
    /// Of calls on books; 0 is an accepted one.
    books: BTreeSet<u8>,
    lanes: MetLanes,
}

/// Lengths, time costs and rows of the accepted derivations with lanes, and the refusals of the others.
#[derive(Default)]
struct MetLanes {
    keys: BTreeSet<u64>,
    passwords: BTreeSet<u64>,
    salts: BTreeSet<u64>,
    times: BTreeSet<u64>,
    /// The number of lanes, and the rows of each.
    rows: BTreeSet<(u64, u64)>,
    refusals: BTreeSet<u8>,
}

/// What was chosen, and with which numbers choices were refused; 0 is an accepted one.
#[derive(Default)]
struct MetChoices {
    refusals: BTreeSet<u8>,
    times: BTreeSet<u64>,
    rows: BTreeSet<u64>,
    columns: BTreeSet<u64>,
    /// How many had a shortfall.
    short: u64,
}

fn number<A>(answer: &Result<A, Refusal>) -> u8 {
    let refusal = answer.as_ref().err();
    refusal.map_or(0, |refusal| refusal.number())
}

impl MetChoices {
    fn add(&mut self, answer: Result<Choice, Refusal>) {
        self.refusals.insert(number(&answer));
        if let Ok(choice) = answer {
            self.times.insert(choice.t);
            self.rows.insert(choice.r);
            self.columns.insert(choice.c);
            self.short += u64::from(choice.shortfall > 0);
        }
    }
}

impl MetLanes {
    fn add(&mut self, compared: ComparedLanes) {
        let ComparedLanes { sizes, p, answer } = compared;
        self.refusals.insert(number(&answer));
        if answer.is_ok() {
            self.keys.insert(sizes.key_len);
            self.passwords.insert(sizes.password_len);
            self.salts.insert(sizes.salt_len);
            self.times.insert(sizes.t);
            self.rows.insert((p, sizes.r / p));
        }
    }

    fn assert_complete(&self) {
        assert_eq!(self.keys, (1..=1024).collect());
        assert_eq!(self.passwords, (0..=1024).collect());
        assert_eq!(self.salts, (8..=64).collect());
        assert!((1..=9).all(|t| self.times.contains(&t)));
        for p in 1..=8 {
            let met = |lane_rows: &u64| self.rows.contains(&(p, *lane_rows));
            assert!((4..=40).step_by(2).all(|rows| met(&rows)), "{p} lanes");
        }
        assert_eq!(self.refusals, [0, 1, 2, 3, 4, 5, 6, 7, 10, 20].into());
    }
}

#[test]
fn every_length_setting_and_refusal_is_met_and_the_two_programs_agree() {
    let mut met = Met::default();
    for seed in FIRST_SEED..FIRST_SEED + COMPARISONS {
        let compared = compare(&Proved, seed)
            .unwrap_or_else(|what| panic!("{what}; `compare-random {seed} 1` repeats it"));
        met.lines.extend(compared.lines.iter().map(number));
        met.books.extend(compared.books.iter().map(number));
        let choices = compared.choices.into_iter();
        choices.for_each(|answer| met.choices.add(answer));
        met.lanes.add(compared.lanes);
        let Settings { rho, omega, mixer } = compared.settings;
        let is_blamka = mixer == Mixer::BlaMka;
        if let Err(refusal) = compared.answer {
            met.refusals.insert((refusal.number(), is_blamka));
            continue;
        }
        met.keys.insert(compared.sizes.key_len);
        met.passwords.insert(compared.sizes.password_len);
        met.salts.insert(compared.sizes.salt_len);
        met.times.insert(compared.sizes.t);
        met.settings.insert((rho, omega, is_blamka));
    }
    assert_eq!(met.keys, (1..=1024).collect());
    assert_eq!(met.passwords, (0..=1024).collect());
    assert_eq!(met.salts, (8..=64).collect());
    assert!((0..=9).all(|t| met.times.contains(&t)));
    let pairs = (1..=12).flat_map(|rho| (1..=11).map(move |omega| (rho, omega)));
    let settings =
        pairs.flat_map(|(rho, omega)| [false, true].map(|is_blamka| (rho, omega, is_blamka)));
    assert_eq!(met.settings, settings.collect());
    let refusals = (1..=8).chain([10, 13, 14]);
    let with_mixers =
        refusals.flat_map(|number| [false, true].map(|is_blamka| (number, is_blamka)));
    assert_eq!(met.refusals, with_mixers.collect());
    assert_eq!(met.lines, [0, 1, 3, 4, 5, 6, 10, 11, 12].into());
    assert_eq!(met.choices.refusals, [0, 1, 2, 3, 10, 13, 15, 16].into());
    assert_eq!(met.choices.times, (1..=255).collect());
    assert_eq!(met.choices.columns, (1..=256).collect());
    let rows = &met.choices.rows;
    assert!([3, 4, 16_383, 16_384].iter().all(|r| rows.contains(r)));
    assert!(met.choices.short >= 10_000, "{}", met.choices.short);
    assert_eq!(met.books, [0, 1, 2, 3, 4, 5, 6, 7, 10, 17, 18, 19].into());
    met.lanes.assert_complete();
}

/// The second program's own questions, recorded derivations of larger matrices than the comparisons have.
#[test]
fn questions_of_the_second_program() {
    let mut random = Random::new(FIRST_SEED);
    for number in 1..=QUESTIONS {
        let question = question(&mut random);
        let answer = run::ask(&Reference, &question).expect("the second program keeps its buffers");
        let case = Case {
            number,
            question,
            answer,
        };
        let outcome = run::check_case(&Proved, &case);
        let place = format!("seed {FIRST_SEED}, question {number}");
        assert_eq!(outcome, Ok(Coverage::Whole), "{place}");
    }
}
