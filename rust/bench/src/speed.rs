//! The plain derivation in safe Rust written for speed, to set the proved one beside.
//!
//! State and matrix are shared words (`Cell`), since two rows of a visit may be one. It is also faster: a compiler
//! that knows state and matrix to be apart sums in vector registers and then has to take the sums to pieces for the
//! round. The output is copied before it is written, so that the XORs into the matrix are done in vector registers.
//! The rotation is a constant of the walk, of which there is one for each, and so are the mixer and whether a reduced call
//! has one round.

use lyra2_reference::sponge::{State, BLOCK_WORDS, CELL_WORDS, FULL_ROUNDS, STARTING_WORDS};
use lyra2_reference::{Inputs, Mixer};
use std::cell::Cell as Word;

/// The state as shared words.
type Shared = [Word<u64>; 16];
/// The words of a cell of the matrix.
type Cell = [Word<u64>; CELL_WORDS];

/// The plain derivation, for inputs and a matrix that no check refuses. The used matrix ends as zeros; the proved
/// derivation pays for that too.
pub fn derive(inputs: &Inputs, key: &mut [u8], matrix: &mut [u64]) {
    let derive = match inputs.settings.omega {
        1 => derive_rotating::<1>,
        2 => derive_rotating::<2>,
        3 => derive_rotating::<3>,
        4 => derive_rotating::<4>,
        5 => derive_rotating::<5>,
        6 => derive_rotating::<6>,
        7 => derive_rotating::<7>,
        8 => derive_rotating::<8>,
        9 => derive_rotating::<9>,
        10 => derive_rotating::<10>,
        11 => derive_rotating::<11>,
        omega => panic!("no rotation goes by {omega} words"),
    };
    derive(inputs, key, matrix);
}

fn derive_rotating<const OMEGA: usize>(inputs: &Inputs, key: &mut [u8], matrix: &mut [u64]) {
    match inputs.settings.mixer {
        Mixer::Plain => derive_mixing::<OMEGA, Plain>(inputs, key, matrix),
        Mixer::BlaMka => derive_mixing::<OMEGA, BlaMka>(inputs, key, matrix),
    }
}

fn derive_mixing<const OMEGA: usize, M: Mix>(inputs: &Inputs, key: &mut [u8], matrix: &mut [u64]) {
    match inputs.settings.rho {
        1 => run::<OMEGA, M>(inputs, key, matrix, M::round),
        rho => run::<OMEGA, M>(inputs, key, matrix, |s| M::rounds(s, rho)),
    }
}

fn run<const OMEGA: usize, M: Mix>(
    inputs: &Inputs,
    key: &mut [u8],
    matrix: &mut [u64],
    reduced_call: impl Fn(&Shared) + Copy,
) {
    let mut start = [0; 16];
    start[8..].copy_from_slice(&STARTING_WORDS);
    let s = &start.map(Word::new);
    absorb_input::<M>(s, inputs, key.len());
    let (rows, columns) = (inputs.r as usize, inputs.c as usize);
    let words = Word::from_mut(matrix).as_slice_of_cells();
    let cells = &words.as_chunks().0[..rows * columns];
    let mut last = setup::<OMEGA>(s, cells, columns, reduced_call);
    for _ in 0..rows * inputs.t as usize {
        let picked = [&s[0], &s[OMEGA]].map(|word| (word.get() % inputs.r) as usize);
        visit::<OMEGA>(s, cells, columns, picked, last, reduced_call);
        last = picked;
    }
    absorb::<M>(s, cells[last[0] * columns].iter().map(Word::get));
    squeeze::<M>(s, key);
    matrix[..CELL_WORDS * rows * columns].fill(0);
}

/// The rounds of a mixer.
trait Mix {
    fn round(shared: &Shared);
    fn rounds(shared: &Shared, count: u64);
}

/// The mixer whose additions are plain ones.
struct Plain;

impl Mix for Plain {
    /// Not inlined, so that the round has all registers to itself.
    #[inline(never)]
    fn round(shared: &Shared) {
        let mut s = shared.each_ref().map(Word::get);
        mix(&mut s);
        put(shared, s);
    }

    /// Several rounds, between which the state is not put back.
    #[inline(never)]
    fn rounds(shared: &Shared, count: u64) {
        let mut s = shared.each_ref().map(Word::get);
        for _ in 0..count {
            mix(&mut s);
        }
        put(shared, s);
    }
}

#[inline(always)]
fn g(s: &mut State, i: usize, j: usize, k: usize, l: usize) {
    s[i] = s[i].wrapping_add(s[j]);
    s[l] = (s[l] ^ s[i]).rotate_right(32);
    s[k] = s[k].wrapping_add(s[l]);
    s[j] = (s[j] ^ s[k]).rotate_right(24);
    s[i] = s[i].wrapping_add(s[j]);
    s[l] = (s[l] ^ s[i]).rotate_right(16);
    s[k] = s[k].wrapping_add(s[l]);
    s[j] = (s[j] ^ s[k]).rotate_right(63);
}

#[inline(always)]
fn mix(s: &mut State) {
    g(s, 0, 4, 8, 12);
    g(s, 1, 5, 9, 13);
    g(s, 2, 6, 10, 14);
    g(s, 3, 7, 11, 15);
    g(s, 0, 5, 10, 15);
    g(s, 1, 6, 11, 12);
    g(s, 2, 7, 8, 13);
    g(s, 3, 4, 9, 14);
}

/// The multiplying mixer. A product is waited for, and so the four quads are mixed side by side, step by step: half of G
/// by half of G takes 1 to 4 % longer, by the order of the sums, and quad after quad 7 %.
struct BlaMka;

impl Mix for BlaMka {
    /// Not inlined, as with the plain mixer.
    #[inline(never)]
    fn round(shared: &Shared) {
        let mut s = shared.each_ref().map(Word::get);
        side_by_side(&mut s, COLUMNS);
        side_by_side(&mut s, DIAGONALS);
        put(shared, s);
    }

    /// Round by round: in a loop that keeps the state, words and products do not fit into the registers, and four rounds
    /// take 40 % longer.
    #[inline(never)]
    fn rounds(shared: &Shared, count: u64) {
        for _ in 0..count {
            Self::round(shared);
        }
    }
}

/// The places of a, b, c and d of four quads.
type Quads = [[usize; 4]; 4];

const COLUMNS: Quads = [[0, 1, 2, 3], [4, 5, 6, 7], [8, 9, 10, 11], [12, 13, 14, 15]];
const DIAGONALS: Quads = [[0, 1, 2, 3], [5, 6, 7, 4], [10, 11, 8, 9], [15, 12, 13, 14]];

#[inline(always)]
fn side_by_side(s: &mut State, [a, b, c, d]: Quads) {
    for (first, second) in [(32, 24), (16, 63)] {
        step(s, a, b, blamka_sum);
        step(s, d, a, |x, y| (x ^ y).rotate_right(first));
        step(s, c, d, blamka_sum);
        step(s, b, c, |x, y| (x ^ y).rotate_right(second));
    }
}

/// A step of all four quads: the words at `to` become what is made of them and of those at `from`.
#[inline(always)]
fn step(s: &mut State, to: [usize; 4], from: [usize; 4], of: impl Fn(u64, u64) -> u64) {
    for (i, j) in to.into_iter().zip(from) {
        s[i] = of(s[i], s[j]);
    }
}

#[inline(always)]
fn blamka_sum(x: u64, y: u64) -> u64 {
    let product = u64::from(x as u32) * u64::from(y as u32);
    x.wrapping_add(y).wrapping_add(product << 1)
}

fn full_call<M: Mix>(s: &Shared) {
    M::rounds(s, FULL_ROUNDS);
}

#[inline(always)]
fn put<const N: usize>(places: &[Word<u64>; N], words: [u64; N]) {
    for (place, word) in places.iter().zip(words) {
        place.set(word);
    }
}

#[inline(always)]
fn xor(place: &Word<u64>, word: u64) {
    place.set(place.get() ^ word);
}

#[inline(always)]
fn output(s: &Shared) -> [u64; CELL_WORDS] {
    std::array::from_fn(|j| s[j].get())
}

fn absorb<M: Mix>(s: &Shared, words: impl Iterator<Item = u64>) {
    for (place, word) in s.iter().zip(words) {
        xor(place, word);
    }
    full_call::<M>(s);
}

fn absorb_input<M: Mix>(s: &Shared, inputs: &Inputs, key_len: usize) {
    let lengths = [key_len, inputs.password.len(), inputs.salt.len()].map(|len| len as u64);
    let numbers = [lengths, [inputs.t, inputs.r, inputs.c]].concat();
    let mut input = [inputs.password, inputs.salt].concat();
    input.extend(numbers.iter().flat_map(|&n| (n as u32).to_le_bytes()));
    input.push(0x80);
    input.resize(input.len().next_multiple_of(8 * BLOCK_WORDS), 0);
    *input.last_mut().expect("the padding has a byte") |= 0x01;
    let (words, _) = input.as_chunks::<8>();
    for block in words.chunks_exact(BLOCK_WORDS) {
        absorb::<M>(s, block.iter().map(|&word| u64::from_le_bytes(word)));
    }
}

/// Fills the matrix; returns the row filled last and the row revisited last.
fn setup<const OMEGA: usize>(
    s: &Shared,
    cells: &[Cell],
    columns: usize,
    reduced_call: impl Fn(&Shared) + Copy,
) -> [usize; 2] {
    let rows: Vec<&[Cell]> = cells.chunks_exact(columns).collect();
    for cell in rows[0].iter().rev() {
        put(cell, output(s));
        reduced_call(s);
    }
    fill_from(s, rows[0], rows[1], reduced_call);
    fill_from(s, rows[1], rows[2], reduced_call);
    let (mut gap, mut step, mut window, mut root) = (1isize, 1, 2, 2usize);
    let (mut row1, mut prev1) = (1, 0);
    for row0 in 3..rows.len() {
        let previous = [rows[row0 - 1], rows[prev1]];
        fill_and_revisit::<OMEGA>(s, rows[row0], rows[row1], previous, reduced_call);
        prev1 = row1;
        row1 = (row1 + step) % window;
        if row1 == 0 {
            window *= 2;
            step = root.wrapping_add_signed(gap);
            gap = -gap;
            root = if gap == -1 { 2 * root } else { root };
        }
    }
    [rows.len() - 1, prev1]
}

fn fill_from(s: &Shared, previous: &[Cell], row: &[Cell], reduced_call: impl Fn(&Shared)) {
    for (cell, written) in previous.iter().zip(row.iter().rev()) {
        for j in 0..CELL_WORDS {
            xor(&s[j], cell[j].get());
        }
        reduced_call(s);
        put(written, std::array::from_fn(|j| cell[j].get() ^ s[j].get()));
    }
}

#[inline(never)]
fn fill_and_revisit<const OMEGA: usize>(
    s: &Shared,
    row: &[Cell],
    revisited: &[Cell],
    previous: [&[Cell]; 2],
    reduced_call: impl Fn(&Shared),
) {
    let read = revisited.iter().zip(previous[0]).zip(previous[1]);
    for (((x, p), q), written) in read.zip(row.iter().rev()) {
        for j in 0..CELL_WORDS {
            let sum = x[j].get().wrapping_add(p[j].get());
            xor(&s[j], sum.wrapping_add(q[j].get()));
        }
        reduced_call(s);
        let rand = output(s);
        put(written, std::array::from_fn(|j| p[j].get() ^ rand[j]));
        for j in 0..CELL_WORDS {
            xor(&x[j], rand[(j + OMEGA) % CELL_WORDS]);
        }
    }
}

#[inline(never)]
fn visit<const OMEGA: usize>(
    s: &Shared,
    cells: &[Cell],
    columns: usize,
    rows: [usize; 2],
    previous: [usize; 2],
    reduced_call: impl Fn(&Shared),
) {
    let [xs, ys] = rows.map(|row| &cells[row * columns..][..columns]);
    let [ps, qs] = previous.map(|row| &cells[row * columns..][..columns]);
    for (x, y) in xs.iter().zip(ys) {
        let p = &ps[remainder(s[2 * OMEGA % CELL_WORDS].get(), columns)];
        let q = &qs[remainder(s[3 * OMEGA % CELL_WORDS].get(), columns)];
        for j in 0..CELL_WORDS {
            let sum = x[j].get().wrapping_add(y[j].get());
            xor(&s[j], sum.wrapping_add(p[j].get()).wrapping_add(q[j].get()));
        }
        reduced_call(s);
        let rand = output(s);
        for j in 0..CELL_WORDS {
            xor(&x[j], rand[j]);
        }
        for j in 0..CELL_WORDS {
            xor(&y[j], rand[(j + OMEGA) % CELL_WORDS]);
        }
    }
}

/// The remainder by a number of columns, which is mostly a power of two.
#[inline(always)]
fn remainder(word: u64, columns: usize) -> usize {
    if columns.is_power_of_two() {
        word as usize & (columns - 1)
    } else {
        (word % columns as u64) as usize
    }
}

fn squeeze<M: Mix>(s: &Shared, key: &mut [u8]) {
    for (number, piece) in key.chunks_mut(8 * CELL_WORDS).enumerate() {
        if number > 0 {
            full_call::<M>(s);
        }
        let bytes = s.iter().flat_map(|word| word.get().to_le_bytes());
        piece.iter_mut().zip(bytes).for_each(|(x, y)| *x = y);
    }
}
