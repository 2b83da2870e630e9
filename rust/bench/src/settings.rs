//! Other settings than the usual ones: the table of docs/PERFORMANCE.md on them. The C programs have the usual rounds and
//! rotation alone, so the library stands beside Rust for speed.

use crate::measure::{add_pass, measure, passes, Times};
use crate::programs::{Program, PLAIN, RUST_FOR_SPEED};
use crate::table::{inputs_with, mixer_name, padded, per_call, ratios, rule, title, turns, FIELDS};
use lyra2_reference::{Inputs, Mixer, Settings};

/// The R and C of the table, 6 MiB.
const SHAPE: (u64, u64) = (1024, 64);

/// The lines of the table: the usual choice, other rounds, other rotations, and the multiplying mixer.
pub const SETTINGS: [Settings; 13] = [
    Settings::USUAL,
    rounds(2),
    rounds(4),
    rounds(12),
    rotation(1),
    rotation(3),
    rotation(5),
    rotation(11),
    multiplying(Settings::USUAL),
    multiplying(rounds(2)),
    multiplying(rounds(4)),
    multiplying(rounds(12)),
    multiplying(rotation(11)),
];

/// The programs, in the order of the columns.
const PROGRAMS: [&str; 2] = [PLAIN, RUST_FOR_SPEED];

const HEAD: [&str; 4] = [
    "rounds, rotation, mixer; ns a reduced call",
    PLAIN,
    RUST_FOR_SPEED,
    "to Rust for speed",
];

const fn rounds(rho: u64) -> Settings {
    Settings {
        rho,
        ..Settings::USUAL
    }
}

const fn rotation(omega: u64) -> Settings {
    Settings {
        omega,
        ..Settings::USUAL
    }
}

/// The same rounds and rotation with the multiplying mixer.
pub const fn multiplying(settings: Settings) -> Settings {
    Settings {
        mixer: Mixer::BlaMka,
        ..settings
    }
}

/// Measures all settings and prints the table.
pub fn print(programs: &[Program], quick: bool) {
    let programs = PROGRAMS.map(|name| {
        let named = programs.iter().find(|program| program.name == name);
        named.expect("this program runs everywhere")
    });
    let given = SETTINGS.map(|settings| inputs_with(settings, SHAPE));
    let times = measure_all(&given, programs, turns(SHAPE), passes(quick));
    println!("{FIELDS}\n{}", title(&given[0], &times[0][0]));
    print!("{}", markdown(&given, programs, &times));
}

/// The times of both programs for each of the inputs.
pub fn measure_all(
    given: &[Inputs],
    programs: [&Program; 2],
    turns: usize,
    passes: usize,
) -> Vec<Vec<Times>> {
    let mut times = vec![Vec::new(); given.len()];
    for _ in 0..passes {
        for (inputs, times) in given.iter().zip(&mut times) {
            add_pass(times, measure(inputs, &programs, turns));
        }
    }
    times
}

/// A table with a line for each of the inputs.
pub fn markdown(given: &[Inputs], programs: [&Program; 2], times: &[Vec<Times>]) -> String {
    let line = |(inputs, times): (&Inputs, &Vec<Times>)| {
        let Settings { rho, omega, mixer } = inputs.settings;
        let mixer = mixer_name(mixer);
        let [library, rust] = [0, 1].map(|place| per_call(inputs, programs[place], &times[place]));
        let ratios = ratios(&times[0], &times[1]);
        [format!("{rho}, {omega}, {mixer}"), library, rust, ratios]
    };
    let mut lines = vec![HEAD.map(String::from), rule()];
    lines.extend(given.iter().zip(times).map(line));
    padded(&lines)
}
