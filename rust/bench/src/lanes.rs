//! Several lanes, run in turn, beside the single sponge: the tables of docs/PERFORMANCE.md on them.

use crate::lent::Lent;
use crate::measure::{add_pass, measure, passes, Times};
use crate::programs::{Program, PLAIN};
use crate::table::{inputs, padded, per_call, ratios, rule, title, turns, FIELDS};
use derivation_link::Proved;
use lyra2_reference::vectors::Subject;
use lyra2_reference::{Inputs, LaneInputs};

/// The R and C of the tables: 6 MiB and 96 MiB.
const SHAPES: [(u64, u64); 2] = [(1024, 64), (16_384, 64)];

/// The numbers of lanes, and what the tables call them.
const LANES: [(u64, &str); 4] = [
    (1, "one lane"),
    (2, "two lanes"),
    (4, "four lanes"),
    (8, "eight lanes"),
];

const HEAD: [&str; 3] = ["this library", "ns a reduced call", "to the single sponge"];

/// The same inputs for lanes, whose settings are always the usual ones.
pub fn with_lanes<'a>(inputs: &Inputs<'a>, p: u64) -> LaneInputs<'a> {
    LaneInputs {
        password: inputs.password,
        salt: inputs.salt,
        t: inputs.t,
        r: inputs.r,
        c: inputs.c,
        p,
    }
}

/// The library with each number of lanes.
pub fn programs() -> [Program; LANES.len()] {
    LANES.map(|(p, name)| Program {
        name,
        lyra2: true,
        lanes: Some(p),
        keeps_matrix: false,
        drawn: false,
        derive: Box::new(move |inputs, lent| derive(&with_lanes(inputs, p), lent)),
    })
}

fn derive(inputs: &LaneInputs, lent: &mut Lent) {
    let (key, matrix) = lent.key_and_matrix();
    let answer = Proved.lanes_derive(inputs, key, matrix);
    let answer = answer.expect("the library has this operation");
    answer.expect("no check refuses");
}

/// Measures both shapes and prints a table for each.
pub fn print(others: &[Program], quick: bool) {
    let single = others.iter().find(|program| program.name == PLAIN);
    let lanes = programs();
    let mut programs = vec![single.expect("this program runs everywhere")];
    programs.extend(&lanes);
    let shapes = SHAPES.map(|(r, c)| inputs(r, c));
    let mut times = SHAPES.map(|_| Vec::new());
    for _ in 0..passes(quick) {
        for (inputs, times) in shapes.iter().zip(&mut times) {
            let pass = measure(inputs, &programs, turns((inputs.r, inputs.c)));
            add_pass(times, pass);
        }
    }
    println!("{FIELDS}");
    for (inputs, times) in shapes.iter().zip(&times) {
        println!("{}", title(inputs, &times[0]));
        print!("{}", markdown(inputs, &programs, times));
    }
}

/// A table with a line for each program, the single sponge first.
pub fn markdown(inputs: &Inputs, programs: &[&Program], times: &[Times]) -> String {
    let line = |(program, taken): (&&Program, &Times)| {
        let name = match program.lanes {
            None => "the single sponge",
            Some(_) => program.name,
        };
        let per_call = per_call(inputs, program, taken);
        [name.to_string(), per_call, ratios(taken, &times[0])]
    };
    let mut lines = vec![HEAD.map(String::from), rule()];
    lines.extend(programs.iter().zip(times).map(line));
    padded(&lines)
}
