//! Time against memory: the same programs over matrices from about 0.1 to 96 MiB.

use crate::measure::{add_pass, measure as measure_turns, passes, Times};
use crate::plot::{Line, Plot};
use crate::programs::Program;
use crate::table::{inputs, mebibytes};

/// R is a power of two: 16 to 16,384 rows of 64 columns.
const ROW_BITS: std::ops::RangeInclusive<u32> = 4..=14;
const COLUMNS: u64 = 64;

/// About how many reduced calls each program makes for a point in a pass, whatever its size.
const CALLS: u64 = 6_000_000;

/// Measures the programs that are drawn; a point is the shortest of its turns.
pub fn measure(programs: &[Program], quick: bool) -> Plot {
    let drawn: Vec<&Program> = programs.iter().filter(|program| program.drawn).collect();
    let sizes: Vec<_> = ROW_BITS.map(|bits| inputs(1 << bits, COLUMNS)).collect();
    let mut times: Vec<Vec<Times>> = vec![Vec::new(); sizes.len()];
    for _ in 0..passes(quick) {
        for (inputs, times) in sizes.iter().zip(&mut times) {
            let turns = CALLS / (2 * inputs.r * inputs.c);
            add_pass(times, measure_turns(inputs, &drawn, turns as usize));
        }
    }
    let points = |program: usize| {
        let milliseconds = times
            .iter()
            .map(move |times| times[program].minimum() * 1e3);
        sizes.iter().map(mebibytes).zip(milliseconds).collect()
    };
    let lines = drawn.iter().enumerate().map(|(number, program)| Line {
        name: program.name.to_string(),
        points: points(number),
    });
    Plot {
        title: format!("Time of a derivation, T = 1, C = {COLUMNS}"),
        x_label: "memory in MiB".to_string(),
        y_label: "milliseconds, shortest of all turns".to_string(),
        lines: lines.collect(),
    }
}
