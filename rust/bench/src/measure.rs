//! The turns in which the programs run, and their times.
//!
//! In each turn every program derives once, in the same buffers, which are overwritten before. From turn to turn the
//! programs change their order.
//!
//! All must leave the key that the second program derives, with their number of lanes. The recorded derivation must also leave that program's end
//! matrix and its record, word for word. The others must leave zeros, which tell that the matrix was wiped and nothing of what was in
//! it, so that the key alone vouches for their walk.

use crate::lanes::with_lanes;
use crate::lent::Lent;
use crate::programs::Program;
use lyra2_reference::{derive_recorded, lanes_derive, Inputs};
use std::time::Instant;

/// What the key and the matrix hold before a run.
const BEFORE: u8 = 0xa5;

/// How often all measurements are gone through, so that what disturbs the machine for a while disturbs them all.
const PASSES: usize = 4;

/// The number of passes; a quick run makes one.
pub fn passes(quick: bool) -> usize {
    if quick {
        1
    } else {
        PASSES
    }
}

/// The seconds that a program took, in rising order.
#[derive(Clone, Default)]
pub struct Times(Vec<f64>);

impl Times {
    /// Times in any order.
    pub fn new(mut seconds: Vec<f64>) -> Times {
        seconds.sort_by(f64::total_cmp);
        Times(seconds)
    }

    /// Takes in the times of another pass.
    pub fn add(&mut self, other: Times) {
        self.0.extend(other.0);
        self.0.sort_by(f64::total_cmp);
    }

    /// How many there are.
    pub fn count(&self) -> usize {
        self.0.len()
    }

    /// The shortest time.
    pub fn minimum(&self) -> f64 {
        self.0[0]
    }

    /// The time in the middle.
    pub fn median(&self) -> f64 {
        self.0[self.0.len() / 2]
    }
}

/// What a program of Lyra2 has to leave.
struct Due {
    key: [u8; 32],
    end_matrix: Vec<u64>,
    record: Vec<u64>,
}

impl Due {
    fn new(inputs: &Inputs) -> Due {
        let given = inputs.parameters(32);
        let mut key = [0; 32];
        let mut end_matrix = vec![0; given.matrix_words() as usize];
        let mut record = vec![0; given.record_words() as usize];
        let answer = derive_recorded(inputs, &mut key, &mut end_matrix, &mut record);
        answer.expect("no check refuses");
        Due {
            key,
            end_matrix,
            record,
        }
    }

    /// The key that is due of a program.
    fn key_of(&self, inputs: &Inputs, program: &Program) -> [u8; 32] {
        let Some(p) = program.lanes else {
            return self.key;
        };
        let mut key = [0; 32];
        let mut matrix = vec![0; self.end_matrix.len()];
        let answer = lanes_derive(&with_lanes(inputs, p), &mut key, &mut matrix);
        answer.expect("no check refuses");
        key
    }

    /// Ends the benchmark if a program left something else than this key and what else is due.
    fn assert_left(&self, program: &Program, key: [u8; 32], lent: &mut Lent) {
        let name = program.name;
        assert_ne!(lent.key, [BEFORE; 32], "{name} left no key");
        if !program.lyra2 {
            return;
        }
        assert_eq!(lent.key, key, "the key of {name}");
        let matrix = lent.matrix();
        if program.keeps_matrix {
            assert!(matrix == self.end_matrix, "the end matrix of {name}");
            assert!(lent.record == self.record, "the record of {name}");
        } else {
            let wiped = matrix.iter().all(|&word| word == 0);
            assert!(wiped, "{name} left words in the matrix");
        }
    }
}

/// The times of every program, in the order of the programs.
pub fn measure(inputs: &Inputs, programs: &[&Program], turns: usize) -> Vec<Times> {
    measure_in(&mut [Lent::new(inputs)], inputs, programs, turns)
}

/// The times of every program in each of several buffers: of all programs in the first, then of all in the second.
pub fn measure_in(
    buffers: &mut [Lent],
    inputs: &Inputs,
    programs: &[&Program],
    turns: usize,
) -> Vec<Times> {
    let due = Due::new(inputs);
    let keys: Vec<[u8; 32]> = programs
        .iter()
        .map(|program| due.key_of(inputs, program))
        .collect();
    buffers.iter_mut().for_each(|lent| lent.stored = due.key);
    let runs = buffers.len() * programs.len();
    let mut times = vec![Vec::with_capacity(turns); runs];
    for turn in 0..turns {
        for place in 0..runs {
            let number = (turn + place) % runs;
            let which = number % programs.len();
            let lent = &mut buffers[number / programs.len()];
            times[number].push(timed(programs[which], inputs, lent));
            due.assert_left(programs[which], keys[which], lent);
        }
    }
    times.into_iter().map(Times::new).collect()
}

/// Adds the times of a pass to those of the passes before, program by program.
pub fn add_pass(all: &mut Vec<Times>, pass: Vec<Times>) {
    all.resize_with(pass.len(), Times::default);
    for (times, more) in all.iter_mut().zip(pass) {
        times.add(more);
    }
}

/// The seconds of one derivation.
fn timed(program: &Program, inputs: &Inputs, lent: &mut Lent) -> f64 {
    lent.key.fill(BEFORE);
    lent.matrix().fill(u64::from_ne_bytes([BEFORE; 8]));
    let began = Instant::now();
    (program.derive)(inputs, lent);
    began.elapsed().as_secs_f64()
}
