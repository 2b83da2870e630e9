//! The questions of the vectors file about the packed record: what its words hold, and how many of them may be lent.

use super::accepted::Shape;
use super::case::{NamedSettings, Question};
use super::random::{any_pair, mixer, Random};
use super::settings::with;
use crate::input::Parameters;
use crate::settings::Mixer::{self, BlaMka, Plain};

/// Words of a record with a number in each, twice as many as are used. The questions from before request #108 lend so
/// many, and keep that.
pub(super) fn unpacked_words(given: &Parameters) -> u64 {
    given.record_words().saturating_mul(2)
}

/// All groups, one after the other; every line names its settings.
pub fn questions() -> Vec<Question> {
    [in_full(), lengths(), large(), random()].concat()
}

/// A shape with settings.
fn shape(mixer: Mixer, [rho, omega]: [u64; 2], [t, r, c]: [u64; 3]) -> Shape {
    Shape {
        t,
        r,
        c,
        ..with(Some(mixer), rho, omega)
    }
}

/// A recorded derivation that lends this many words for its record.
fn recorded(shape: &Shape, random: &mut Random, record_words: u64, in_full: bool) -> Question {
    Question::DeriveRecorded {
        given: shape.given(random),
        key_len: shape.key_len,
        record_words,
        in_full,
    }
}

/// Records that fit exactly, listed word by word. Some have rows from 256 on, which need more than a byte, and one has
/// the most columns.
fn in_full() -> Vec<Question> {
    let shapes = [
        shape(Plain, [1, 2], [1, 3, 1]),
        shape(BlaMka, [1, 2], [1, 3, 1]),
        shape(Plain, [1, 2], [1, 4, 2]),
        shape(BlaMka, [1, 2], [2, 5, 3]),
        shape(Plain, [12, 11], [3, 3, 4]),
        shape(BlaMka, [2, 5], [1, 17, 2]),
        shape(Plain, [1, 1], [4, 6, 1]),
        shape(Plain, [1, 2], [0, 4, 2]),
        shape(BlaMka, [3, 7], [0, 5, 3]),
        shape(Plain, [1, 2], [1, 300, 1]),
        shape(BlaMka, [1, 3], [1, 513, 1]),
        shape(Plain, [1, 2], [1, 3, 256]),
    ];
    let mut random = Random::new(45);
    let listed = |shape: &Shape| {
        let record_words = shape.parameters().record_words();
        recorded(shape, &mut random, record_words, true)
    };
    shapes.iter().map(listed).collect()
}

/// T, R and C of the records that are lent with every length around a limit.
pub(super) const SHAPES: [[u64; 3]; 10] = [
    [1, 3, 1],
    [2, 3, 1],
    [255, 3, 1],
    [1, 4, 1],
    [1, 3, 2],
    [3, 5, 7],
    [1, 17, 16],
    [1, 3, 256],
    [2, 257, 3],
    [1, 16_384, 1],
];

/// Lengths of the record that are accepted: the used words, one more, one less than a number in each word takes, just
/// these, and one more. Without visits no word is used, and some have room for a visit of each row.
fn accepted_lengths(shape: &Shape) -> Vec<u64> {
    let of_one_visit = Shape { t: 1, ..*shape }.parameters();
    let before = unpacked_words(&shape.parameters());
    match shape.parameters().record_words() {
        0 => vec![
            0,
            1,
            of_one_visit.record_words(),
            unpacked_words(&of_one_visit),
        ],
        used => vec![used, used + 1, before - 1, before, before + 1],
    }
}

/// One input of each shape with several records, which have one answer.
fn lengths() -> Vec<Question> {
    let mut random = Random::new(46);
    let mut questions = Vec::new();
    for (place, sizes) in (0..).zip(SHAPES.into_iter().chain([[0, 3, 1], [0, 5, 3]])) {
        let mixer = if place % 2 == 0 { Plain } else { BlaMka };
        let shape = shape(mixer, [1 + place % 12, 1 + (place + 1) % 11], sizes);
        let contents = random.clone();
        for record_words in accepted_lengths(&shape) {
            random = contents.clone();
            questions.push(recorded(&shape, &mut random, record_words, false));
        }
    }
    questions
}

/// The records of the most rows and visits, and of the largest matrix, which fit exactly.
fn large() -> Vec<Question> {
    let mut random = Random::new(47);
    let shapes = [
        shape(Plain, [1, 2], [2, 16_384, 1]),
        shape(BlaMka, [1, 2], [255, 16_384, 1]),
        shape(Plain, [1, 2], [1, 16_384, 256]),
    ];
    let fitting = |shape: &Shape| {
        let record_words = shape.parameters().record_words();
        recorded(shape, &mut random, record_words, false)
    };
    shapes.iter().map(fitting).collect()
}

/// Random sizes and any settings, with records from a few words short to a few more than the unpacked form takes.
fn random() -> Vec<Question> {
    let mut random = Random::new(48);
    let mut questions = Vec::new();
    for _ in 0..40 {
        let shape = Shape {
            password_len: random.between(0, 150),
            salt_len: random.between(8, 64),
            key_len: random.between(1, 200),
            t: random.between(0, 3),
            r: random.between(3, 40),
            c: random.between(1, 8),
            settings: Some(NamedSettings {
                mixer: Some(mixer(&mut random)),
                ..any_pair(&mut random)
            }),
        };
        let used = shape.parameters().record_words();
        let most = unpacked_words(&shape.parameters()) + 3;
        let around = random.between(used.saturating_sub(3), used + 3);
        let record_words = match random.once_in(2) {
            true => around,
            false => random.between(used, most),
        };
        questions.push(recorded(&shape, &mut random, record_words, false));
    }
    questions
}
