//! The time of a reduced call, one round, with each mixer: the proved permutation beside the same in Rust, interleaved.

use sponge_link::{State, STARTING_WORDS};
use std::hint::black_box;
use std::time::Instant;

const CALLS: usize = 200_000;
const TURNS: usize = 101;

const QUADS: [[usize; 4]; 8] = [
    [0, 4, 8, 12],
    [1, 5, 9, 13],
    [2, 6, 10, 14],
    [3, 7, 11, 15],
    [0, 5, 10, 15],
    [1, 6, 11, 12],
    [2, 7, 8, 13],
    [3, 4, 9, 14],
];

/// The rounds as Rust code for speed writes them, with the additions of a mixer.
#[inline(always)]
fn rounds_in_rust(s: &mut State, n: usize, add: impl Fn(u64, u64) -> u64) {
    for _ in 0..n {
        for [i, j, k, l] in QUADS {
            let (mut a, mut b, mut c, mut d) = (s[i], s[j], s[k], s[l]);
            a = add(a, b);
            d = (d ^ a).rotate_right(32);
            c = add(c, d);
            b = (b ^ c).rotate_right(24);
            a = add(a, b);
            d = (d ^ a).rotate_right(16);
            c = add(c, d);
            b = (b ^ c).rotate_right(63);
            (s[i], s[j], s[k], s[l]) = (a, b, c, d);
        }
    }
}

#[inline(never)]
fn plain_in_rust(s: &mut State, n: usize) {
    rounds_in_rust(s, n, u64::wrapping_add);
}

#[inline(never)]
fn blamka_in_rust(s: &mut State, n: usize) {
    rounds_in_rust(s, n, |a, b| {
        let product = u64::from(a as u32) * u64::from(b as u32);
        a.wrapping_add(b).wrapping_add(product << 1)
    });
}

/// Runs so many rounds on a state.
type Run = fn(&mut State, usize);

/// Nanoseconds a call of one run, and the state that it ends in.
fn timed(run: Run) -> (f64, State) {
    let mut s: State = [0; 16];
    s[8..].copy_from_slice(&STARTING_WORDS);
    let mut s = black_box(s);
    let began = Instant::now();
    run(&mut s, CALLS);
    let spent = began.elapsed();
    (spent.as_nanos() as f64 / CALLS as f64, black_box(s))
}

fn minimum_and_median(mut times: Vec<f64>) -> (f64, f64) {
    times.sort_by(f64::total_cmp);
    (times[0], times[times.len() / 2])
}

/// Times the two in turn, compares what they end in, and prints the table of a mixer.
fn show(mixer: &str, proved: Run, in_rust: Run) {
    let mut times = Vec::new();
    let mut rust_times = Vec::new();
    for _ in 0..TURNS {
        let (time, end) = timed(proved);
        let (rust_time, rust_end) = timed(in_rust);
        assert_eq!(end, rust_end, "{mixer}: the two end in different states");
        times.push(time);
        rust_times.push(rust_time);
    }
    let (least, middle) = minimum_and_median(times);
    let (rust_least, rust_middle) = minimum_and_median(rust_times);
    println!("a reduced call, ns        minimum   median   ({mixer})");
    println!("proved, static library    {least:7.2}  {middle:7.2}");
    println!("Rust, opt-level 3         {rust_least:7.2}  {rust_middle:7.2}");
    println!(
        "ratio                     {:7.3}  {:7.3}",
        least / rust_least,
        middle / rust_middle
    );
}

fn main() {
    let plain = |state: &mut State, n| sponge_link::rounds(state, n, false);
    let blamka = |state: &mut State, n| sponge_link::rounds(state, n, true);
    show("plain mixer", plain, plain_in_rust);
    show("BlaMka", blamka, blamka_in_rust);
}
