//! The tables of docs/PERFORMANCE.md.

use crate::measure::{add_pass, measure, passes, Times};
use crate::programs::{Program, C_SSE2, RUST_FOR_SPEED};
use lyra2_reference::{Inputs, Mixer, Settings};

/// The R and C of the page's tables: 6 MiB twice, then 96 MiB twice.
pub const SHAPES: [(u64, u64); 4] = [(1024, 64), (256, 256), (16_384, 64), (4096, 256)];

/// The turns of a shape in a pass, fewer where a derivation takes long.
pub fn turns((r, c): (u64, u64)) -> usize {
    if r * c > 1 << 20 {
        3
    } else if r * c > 1 << 18 {
        8
    } else {
        40
    }
}

/// What the fields of every table hold.
pub const FIELDS: &str =
    "Every field holds the minimum and the median of all turns; a ratio above 1 is slower.";

const HEAD: [&str; 5] = [
    "program",
    "ns a reduced call",
    "MiB/s",
    "to Rust for speed",
    "to C, SSE2",
];

/// A line of a table.
type Line = [String; HEAD.len()];

/// The inputs of a measurement with the usual settings, with T = 1.
pub fn inputs(r: u64, c: u64) -> Inputs<'static> {
    inputs_with(Settings::USUAL, (r, c))
}

/// The same with these settings.
pub fn inputs_with(settings: Settings, (r, c): (u64, u64)) -> Inputs<'static> {
    Inputs {
        password: b"correct horse battery staple",
        salt: b"0123456789abcdef",
        t: 1,
        r,
        c,
        settings,
    }
}

/// The mebibytes of the matrix.
pub fn mebibytes(inputs: &Inputs) -> f64 {
    (96 * inputs.r * inputs.c) as f64 / f64::from(1 << 20)
}

/// Measures every shape with these settings and prints a table for each.
pub fn print(programs: &[Program], settings: Settings, shapes: &[(u64, u64)], quick: bool) {
    let programs: Vec<&Program> = programs.iter().collect();
    let mut times = vec![Vec::new(); shapes.len()];
    for _ in 0..passes(quick) {
        for (&shape, times) in shapes.iter().zip(&mut times) {
            let inputs = inputs_with(settings, shape);
            add_pass(times, measure(&inputs, &programs, turns(shape)));
        }
    }
    println!("{FIELDS}");
    for (&shape, times) in shapes.iter().zip(&times) {
        let inputs = inputs_with(settings, shape);
        println!("{}", title(&inputs, &times[0]));
        print!("{}", markdown(&inputs, &programs, times));
    }
}

/// The line above a table; the mixer is named where it is not the usual one.
pub fn title(inputs: &Inputs, times: &Times) -> String {
    let Inputs { t, r, c, .. } = inputs;
    let (size, turns) = (mebibytes(inputs), times.count());
    let mixer = match inputs.settings.mixer {
        Mixer::Plain => String::new(),
        other => format!(", {}", mixer_name(other)),
    };
    format!("\n**{size} MiB{mixer}:** T {t}, R {r}, C {c}, {turns} turns\n")
}

/// What the tables call a mixer.
pub fn mixer_name(mixer: Mixer) -> &'static str {
    match mixer {
        Mixer::Plain => "plain",
        Mixer::BlaMka => "BlaMka",
    }
}

/// A table with a line for each program.
fn markdown(inputs: &Inputs, programs: &[&Program], times: &[Times]) -> String {
    let times_of = |name| {
        let place = programs.iter().position(|program| program.name == name);
        &times[place.expect("this program runs everywhere")]
    };
    let bases = [RUST_FOR_SPEED, C_SSE2].map(times_of);
    let mut lines = vec![HEAD.map(String::from), rule()];
    let measured = programs.iter().zip(times);
    lines.extend(measured.map(|(program, times)| line(inputs, program, times, bases)));
    padded(&lines)
}

/// Markdown's line below the head: names to the left, numbers to the right.
pub fn rule<const N: usize>() -> [String; N] {
    std::array::from_fn(|column| if column == 0 { "---" } else { "---:" }.to_string())
}

/// Nanoseconds a reduced call. Argon2id makes none, so its time is given by the memory alone.
pub fn per_call(inputs: &Inputs, program: &Program, times: &Times) -> String {
    let calls = (inputs.r * inputs.c * (inputs.t + 1)) as f64;
    match program.lyra2 {
        true => pair(times, |time| format!("{:.1}", time * 1e9 / calls)),
        false => "–".to_string(),
    }
}

fn line(inputs: &Inputs, program: &Program, times: &Times, bases: [&Times; 2]) -> Line {
    let size = mebibytes(inputs);
    let per_call = per_call(inputs, program, times);
    let per_second = pair(times, |time| format!("{:.0}", size / time));
    let [rust, c] = bases.map(|base| ratios(times, base));
    [program.name.to_string(), per_call, per_second, rust, c]
}

/// The minimum and the median.
pub fn pair(times: &Times, text: impl Fn(f64) -> String) -> String {
    format!("{} / {}", text(times.minimum()), text(times.median()))
}

/// The minimum by the other's minimum, and the median by the other's median.
pub fn ratios(times: &Times, base: &Times) -> String {
    let minima = times.minimum() / base.minimum();
    let medians = times.median() / base.median();
    format!("{minima:.2} / {medians:.2}")
}

/// The table with fields of equal width, so that it can be read as it stands.
pub fn padded<const N: usize>(lines: &[[String; N]]) -> String {
    let mut text = String::new();
    for line in lines {
        for (column, field) in line.iter().enumerate() {
            let width = lines.iter().map(|line| line[column].chars().count()).max();
            let width = width.unwrap_or(0);
            text += &match column {
                0 => format!("| {field:width$} |"),
                _ => format!(" {field:>width$} |"),
            };
        }
        text.push('\n');
    }
    text
}
