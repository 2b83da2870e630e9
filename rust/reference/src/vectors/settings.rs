//! The questions of the vectors file about rounds and rotation as settings, those that are accepted.
//!
//! The groups that derive take the mixer that their lines name, and with it they are asked again for request #107.

use super::accepted::{four_ways, listed_in_full, plain_contents_of, Shape, BASE};
use super::case::{NamedSettings, Question};
use super::random::{any_pair, Random};
use crate::refusal::{ROTATIONS, ROUNDS};
use crate::settings::Mixer;

/// All groups, one after the other; no line names the mixer.
pub fn accepted() -> Vec<Question> {
    [
        in_full(None),
        of_pairs(None, 32, pairs()),
        plain_contents(None),
        rows(None),
        corners(None),
        without_visits(None),
        where_nothing_is_rotated(None),
        one_input_four_ways(None),
        costs(),
        random(None, 38, 60),
    ]
    .concat()
}

/// The shape that the groups vary, with these settings.
pub(super) fn with(mixer: Option<Mixer>, rho: u64, omega: u64) -> Shape {
    Shape {
        settings: Some(NamedSettings { rho, omega, mixer }),
        ..BASE
    }
}

/// Rounds and rotation that differ from number to number.
fn spread(mixer: Option<Mixer>, number: u64) -> Shape {
    with(mixer, 1 + number % 12, 1 + number % 11)
}

/// The limits of both settings and some between them, with visits and without.
pub(super) fn in_full(mixer: Option<Mixer>) -> Vec<Question> {
    let pairs = [
        (1, 1),
        (1, 11),
        (12, 1),
        (12, 11),
        (2, 6),
        (5, 4),
        (7, 8),
        (1, 5),
    ];
    let with_visits = pairs.map(|(rho, omega)| with(mixer, rho, omega));
    let without = [(12, 11), (3, 7)].map(|(rho, omega)| Shape {
        t: 0,
        r: 5,
        ..with(mixer, rho, omega)
    });
    listed_in_full(31, &[&with_visits[..], &without].concat())
}

/// Every number of rounds with every rotation.
pub(super) fn pairs() -> impl Iterator<Item = (u64, u64)> {
    ROUNDS.flat_map(|rho| ROTATIONS.map(move |omega| (rho, omega)))
}

/// A derivation with each of some pairs of rounds and rotation.
pub(super) fn of_pairs(
    mixer: Option<Mixer>,
    seed: u64,
    pairs: impl Iterator<Item = (u64, u64)>,
) -> Vec<Question> {
    let mut random = Random::new(seed);
    let shapes = pairs.map(|(rho, omega)| Shape {
        r: 4 + (rho + omega) % 5,
        c: 2 + omega % 3,
        ..with(mixer, rho, omega)
    });
    shapes.map(|shape| shape.recorded(&mut random)).collect()
}

/// The earlier questions of these contents with the usual choice named, to which the answers are the same, and with
/// other settings.
pub(super) fn plain_contents(mixer: Option<Mixer>) -> Vec<Question> {
    let usual = plain_contents_of(&with(mixer, 1, 2));
    [usual, plain_contents_of(&with(mixer, 2, 3))].concat()
}

/// Rows over the first windows of the Setup walk, and where later ones begin and end.
pub(super) fn rows(mixer: Option<Mixer>) -> Vec<Question> {
    let mut random = Random::new(33);
    let later = [6, 7, 8, 9, 10].map(|power| 1 << power);
    let edges = later.into_iter().flat_map(|start| start - 1..=start + 1);
    let shapes = (3..=34).chain(edges).map(|r| Shape {
        r,
        c: 1 + r % 3,
        ..spread(mixer, r)
    });
    shapes.map(|shape| shape.recorded(&mut random)).collect()
}

/// The lowest and the highest of both settings, of T and of C, in every combination; the lengths are at their limits too.
pub(super) fn corners(mixer: Option<Mixer>) -> Vec<Question> {
    let mut random = Random::new(34);
    let mut questions = Vec::new();
    for set in 0..16 {
        let pick = |bit: u32, low: u64, high: u64| if set >> bit & 1 == 0 { low } else { high };
        let shape = Shape {
            key_len: pick(0, 1, 1024),
            password_len: pick(1, 1024, 0),
            salt_len: pick(2, 64, 8),
            t: pick(2, 0, 255),
            r: 3,
            c: pick(3, 1, 256),
            ..with(mixer, pick(0, 1, 12), pick(1, 1, 11))
        };
        questions.push(shape.recorded(&mut random));
    }
    questions
}

/// T = 0: rows over the first windows, and some later ones.
pub(super) fn without_visits(mixer: Option<Mixer>) -> Vec<Question> {
    let mut random = Random::new(35);
    let shapes = (3..=17).chain([33, 64, 65, 257]).map(|r| Shape {
        t: 0,
        r,
        c: 1 + r % 3,
        ..spread(mixer, 7 * r)
    });
    shapes.map(|shape| shape.recorded(&mut random)).collect()
}

/// Three rows without visits, one input with each of some rotations: nothing is rotated, and all keys are the same.
pub(super) fn where_nothing_is_rotated(mixer: Option<Mixer>) -> Vec<Question> {
    let with_rotation = |omega| {
        let shape = Shape {
            t: 0,
            r: 3,
            ..with(mixer, 3, omega)
        };
        shape.recorded(&mut Random::new(36))
    };
    [1, 2, 6, 11].map(with_rotation).to_vec()
}

/// T, ρ and ω: the usual choice, the limits of both and some between them, each in every operation that derives.
const FOUR_WAYS: [(u64, u64, u64); 12] = [
    (1, 1, 2),
    (1, 1, 1),
    (2, 1, 11),
    (1, 12, 1),
    (2, 12, 11),
    (1, 2, 2),
    (3, 1, 3),
    (1, 6, 6),
    (2, 7, 5),
    (1, 11, 10),
    (0, 4, 4),
    (0, 12, 11),
];

pub(super) fn one_input_four_ways(mixer: Option<Mixer>) -> Vec<Question> {
    let mut random = Random::new(37);
    let mut questions = Vec::new();
    for (place, (t, rho, omega)) in (0..).zip(FOUR_WAYS) {
        let shape = Shape {
            password_len: random.between(0, 150),
            salt_len: random.between(8, 64),
            key_len: random.between(1, 200),
            t,
            r: random.between(4, 20),
            c: random.between(2, 8),
            ..with(mixer, rho, omega)
        };
        questions.extend(four_ways(&shape, place % 3, &mut random));
    }
    questions
}

/// Costs with every number of rounds: of a small derivation, and of the largest.
fn costs() -> Vec<Question> {
    let small = ROUNDS.map(|rho| with(None, rho, 2));
    let largest = ROUNDS.map(|rho| Shape {
        key_len: 1024,
        password_len: 1024,
        salt_len: 64,
        t: 255,
        r: 16_384,
        c: 256,
        ..with(None, rho, 2)
    });
    let setup_alone = [1, 12].map(|rho| Shape {
        t: 0,
        ..with(None, rho, 2)
    });
    let shapes = small.chain(largest).chain(setup_alone);
    shapes.map(|shape| shape.cost()).collect()
}

/// Random sizes, and any rounds and rotation.
pub(super) fn random(mixer: Option<Mixer>, seed: u64, count: u64) -> Vec<Question> {
    let mut random = Random::new(seed);
    let mut questions = Vec::new();
    for _ in 0..count {
        let shape = Shape {
            password_len: random.between(0, 150),
            salt_len: random.between(8, 64),
            key_len: random.between(1, 200),
            t: random.between(0, 3),
            r: random.between(3, 40),
            c: random.between(1, 8),
            settings: Some(NamedSettings {
                mixer,
                ..any_pair(&mut random)
            }),
        };
        let mut given = shape.given(&mut random);
        given.matrix_words += random.between(0, 3);
        questions.push(shape.recorded_of(given));
    }
    questions
}
