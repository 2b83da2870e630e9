//! The questions of the vectors file about the mixer, those that are accepted.
//!
//! Most are questions of rounds and rotation asked again with BlaMka, so that two lines show what the mixer alone changes.

use super::accepted::{listed_in_full, Shape};
use super::case::Question;
use super::random::Random;
use super::settings::{self, with};
use crate::settings::Mixer;

const PLAIN: Option<Mixer> = Some(Mixer::Plain);
const BLAMKA: Option<Mixer> = Some(Mixer::BlaMka);

/// All groups, one after the other.
pub fn accepted() -> Vec<Question> {
    [
        usual_in_full(),
        settings::in_full(BLAMKA),
        limits_of_pairs(),
        settings::plain_contents(PLAIN),
        settings::plain_contents(BLAMKA),
        settings::rows(BLAMKA),
        settings::corners(BLAMKA),
        settings::without_visits(BLAMKA),
        settings::where_nothing_is_rotated(BLAMKA),
        input_blocks(),
        key_lengths(),
        settings::one_input_four_ways(BLAMKA),
        settings::random(BLAMKA, 42, 30),
    ]
    .concat()
}

/// The usual rounds and rotation, with visits and without.
fn usual_in_full() -> Vec<Question> {
    let usual = with(BLAMKA, 1, 2);
    let smallest = Shape {
        r: 3,
        c: 1,
        ..usual
    };
    let setup_alone = Shape { t: 0, ..usual };
    listed_in_full(44, &[smallest, usual, setup_alone])
}

/// The pairs in which the rounds, the rotation or both are at a limit.
fn limits_of_pairs() -> Vec<Question> {
    let at_limit = |(rho, omega): &(u64, u64)| [1, 12].contains(rho) || [1, 11].contains(omega);
    settings::of_pairs(BLAMKA, 39, settings::pairs().filter(at_limit))
}

/// A recorded derivation of each shape, with random contents.
fn recorded(seed: u64, shapes: impl Iterator<Item = Shape>) -> Vec<Question> {
    let mut random = Random::new(seed);
    shapes.map(|shape| shape.recorded(&mut random)).collect()
}

/// Passwords around the lengths with which the input fills one, two, three or sixteen blocks, and at the limits.
fn input_blocks() -> Vec<Question> {
    let lengths = [8, 16, 64].into_iter().flat_map(|salt_len| {
        let blocks = [1, 2, 3, 16].into_iter();
        // A long salt and the six numbers are more than one block already.
        let full = blocks.filter_map(move |count: u64| (64 * count).checked_sub(24 + salt_len));
        let edges = full.flat_map(|len| len - 1..=len + 1);
        let all = edges.chain([0, 1024]);
        all.map(move |password_len| (password_len, salt_len))
    });
    let shapes = lengths.map(|(password_len, salt_len)| Shape {
        password_len,
        salt_len,
        ..with(BLAMKA, 1, 2)
    });
    recorded(40, shapes)
}

/// The limits, and the lengths around the first multiples of a piece of 96 bytes.
fn key_lengths() -> Vec<Question> {
    let edges = [96, 192, 288].into_iter().flat_map(|len| len - 1..=len + 1);
    let shapes = edges.chain([1, 2, 1023, 1024]).map(|key_len| Shape {
        key_len,
        ..with(BLAMKA, 1, 2)
    });
    recorded(41, shapes)
}
