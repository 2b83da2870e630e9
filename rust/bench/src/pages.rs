//! Large pages beside ordinary ones: the tables of docs/PERFORMANCE.md on them.
//!
//! The first tables are of derivations in memory that is there, as all others are. The last is of a caller who derives
//! once: it counts setting the memory aside, the first touch of its pages, the derivation, and giving the memory back.

use crate::fresh;
use crate::lent::{Lent, Pages};
use crate::measure::{add_pass, measure_in, passes, Times};
use crate::programs::{Program, ARGON2ID, C_SSE2, PLAIN};
use crate::table::{inputs, mebibytes, padded, pair, per_call, ratios, rule, title, turns, FIELDS};
use derivation_link::Proved;
use lyra2_memory::{Granted, Memory};
use lyra2_reference::vectors::{Reference, Subject};
use lyra2_reference::Inputs;
use std::ops::DerefMut;
use std::time::Instant;

/// The R and C of the tables: 6 MiB, 96 MiB twice, and the most that is accepted.
const SHAPES: [(u64, u64); 4] = [(1024, 64), (16_384, 64), (4096, 256), (16_384, 256)];

/// The programs of the first tables.
const PROGRAMS: [&str; 3] = [PLAIN, C_SSE2, ARGON2ID];

/// Both kinds of pages, in the order of the columns.
const BOTH: [Pages; 2] = [Pages::Ordinary, Pages::Large];

const DERIVATIONS_HEAD: [&str; 4] = [
    "program, ns a reduced call",
    "ordinary pages",
    "large pages",
    "large to ordinary",
];

const CALLERS_HEAD: [&str; 4] = ["matrix, ms", "Vec", "Memory", "Memory to Vec"];

/// The line above the last table.
const ONCE: &str = "
**Once:** this library, plain, from asking for memory to giving it back, as many turns
";

/// The times of a shape on ordinary pages and then on large ones.
#[derive(Default)]
struct Measured {
    /// Of every program.
    derived: Vec<Times>,
    /// Of a caller who derives once.
    once: Vec<Times>,
}

impl Measured {
    fn add_pass(&mut self, inputs: &Inputs, programs: &[&Program]) {
        let turns = turns((inputs.r, inputs.c));
        let mut buffers = BOTH.map(|pages| Lent::on(pages, inputs));
        let pass = measure_in(&mut buffers, inputs, programs, turns);
        drop(buffers);
        add_pass(&mut self.derived, pass);
        add_pass(&mut self.once, measure_once(inputs, turns));
    }
}

/// Measures every shape and prints the tables.
pub fn print(programs: &[Program], quick: bool) {
    fresh::take_large_blocks_from_the_system();
    let is_wanted = |program: &&Program| PROGRAMS.contains(&program.name);
    let programs: Vec<&Program> = programs.iter().filter(is_wanted).collect();
    let shapes = SHAPES.map(|(r, c)| inputs(r, c));
    let mut measured = SHAPES.map(|_| Measured::default());
    for _ in 0..passes(quick) {
        for (inputs, measured) in shapes.iter().zip(&mut measured) {
            measured.add_pass(inputs, &programs);
        }
    }
    println!("{FIELDS}");
    for (inputs, Measured { derived, .. }) in shapes.iter().zip(&measured) {
        println!("{}", title(inputs, &derived[0]));
        print!("{}", derivations(inputs, &programs, derived));
    }
    let once: Vec<_> = measured.into_iter().map(|times| times.once).collect();
    println!("{ONCE}");
    print!("{}", callers(&shapes, &once));
}

/// A line of Markdown on what the system is set to, and on what it granted for the largest of the shapes.
pub fn description() -> String {
    let setting = std::fs::read_to_string("/sys/kernel/mm/transparent_hugepage/enabled");
    let largest = inputs(16_384, 256);
    format!(
        "- large pages: set to {}; granted for {} MiB: {}\n",
        chosen(&setting.unwrap_or_default()),
        mebibytes(&largest),
        words(zeros(&largest).granted())
    )
}

/// The word in brackets, by which the system says which of several settings it has.
pub fn chosen(settings: &str) -> &str {
    let after = settings.split_once('[').map(|(_, after)| after);
    let chosen = after.and_then(|after| after.split_once(']'));
    chosen.map_or("unknown", |(word, _)| word)
}

/// What the system granted.
pub fn words(granted: Granted) -> String {
    let fields = [
        ("large pages", granted.large_pages),
        ("kept from core dumps", granted.kept_from_dumps),
        ("locked", granted.locked),
    ];
    let yes_or_no = |granted| if granted { "yes" } else { "no" };
    fields
        .map(|(name, granted)| format!("{name} {}", yes_or_no(granted)))
        .join(", ")
}

/// A table with a line for each program; the times are those on ordinary pages and then those on large ones.
pub fn derivations(inputs: &Inputs, programs: &[&Program], times: &[Times]) -> String {
    let (ordinary, large) = times.split_at(programs.len());
    let line = |((program, ordinary), large): ((&&Program, &Times), &Times)| {
        let [first, second] = [ordinary, large].map(|times| per_call(inputs, program, times));
        [
            program.name.to_string(),
            first,
            second,
            ratios(large, ordinary),
        ]
    };
    let mut lines = vec![DERIVATIONS_HEAD.map(String::from), rule()];
    lines.extend(programs.iter().zip(ordinary).zip(large).map(line));
    padded(&lines)
}

/// A table with a line for each shape, whose times are those with a Vec and then those with a Memory.
pub fn callers(shapes: &[Inputs], times: &[Vec<Times>]) -> String {
    let milliseconds = |times: &Times| pair(times, |time| format!("{:.1}", time * 1e3));
    let line = |(inputs, times): (&Inputs, &Vec<Times>)| {
        let Inputs { r, c, .. } = inputs;
        let matrix = format!("{} MiB: R {r}, C {c}", mebibytes(inputs));
        let [vec, memory] = [&times[0], &times[1]];
        [
            matrix,
            milliseconds(vec),
            milliseconds(memory),
            ratios(memory, vec),
        ]
    };
    let mut lines = vec![CALLERS_HEAD.map(String::from), rule()];
    lines.extend(shapes.iter().zip(times).map(line));
    padded(&lines)
}

/// The times of a caller who derives once, with a Vec and with a Memory, in turns.
pub fn measure_once(inputs: &Inputs, turns: usize) -> Vec<Times> {
    let mut due = [0; 32];
    let answer = Reference.derive(inputs, &mut due, &mut zeros(inputs));
    answer.expect("no check refuses");
    let mut times = BOTH.map(|_| Vec::with_capacity(turns));
    for turn in 0..turns {
        for place in 0..BOTH.len() {
            let number = (turn + place) % BOTH.len();
            let (time, key) = once(inputs, BOTH[number]);
            assert_eq!(key, due, "the key on {:?} pages", BOTH[number]);
            times[number].push(time);
        }
    }
    times.into_iter().map(Times::new).collect()
}

/// The seconds from asking for memory to giving it back, and the key that was derived between.
fn once(inputs: &Inputs, pages: Pages) -> (f64, [u8; 32]) {
    let began = Instant::now();
    let key = match pages {
        Pages::Ordinary => derive_in(vec![0; matrix_words(inputs)], inputs),
        Pages::Large => derive_in(zeros(inputs), inputs),
    };
    (began.elapsed().as_secs_f64(), key)
}

/// Derives in a matrix and gives it back.
fn derive_in(mut matrix: impl DerefMut<Target = [u64]>, inputs: &Inputs) -> [u8; 32] {
    let mut key = [0; 32];
    let answer = Proved.derive(inputs, &mut key, &mut matrix);
    answer.expect("no check refuses");
    key
}

fn zeros(inputs: &Inputs) -> Memory {
    Memory::zeros(matrix_words(inputs)).expect("enough memory")
}

fn matrix_words(inputs: &Inputs) -> usize {
    inputs.parameters(32).matrix_words() as usize
}
