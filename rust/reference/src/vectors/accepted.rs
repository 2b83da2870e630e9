//! The questions of the vectors file that are accepted, group by group.
//!
//! A group draws its passwords and salts from a seed of its own, so that a change to one group
//! leaves the others' contents as they are.

use super::case::{Bytes, Given, NamedSettings, Question};
use super::random::Random;
use super::record::unpacked_words;
use crate::input::Parameters;
use crate::Inputs;

/// The sizes of a derivation, and its settings where the line is to name them.
#[derive(Clone, Copy)]
pub(super) struct Shape {
    pub password_len: u64,
    pub salt_len: u64,
    pub key_len: u64,
    pub t: u64,
    pub r: u64,
    pub c: u64,
    pub settings: Option<NamedSettings>,
}

/// The shape that the groups vary.
pub(super) const BASE: Shape = Shape {
    password_len: 13,
    salt_len: 16,
    key_len: 32,
    t: 1,
    r: 4,
    c: 2,
    settings: None,
};

impl Shape {
    pub fn parameters(&self) -> Parameters {
        Parameters {
            key_len: self.key_len,
            password_len: self.password_len,
            salt_len: self.salt_len,
            t: self.t,
            r: self.r,
            c: self.c,
        }
    }

    /// Random contents and a matrix that fits exactly.
    pub fn given(&self, random: &mut Random) -> Given {
        Given {
            password: Bytes::Listed(random.bytes(self.password_len)),
            salt: Bytes::Listed(random.bytes(self.salt_len)),
            t: self.t,
            r: self.r,
            c: self.c,
            settings: self.settings,
            matrix_words: self.parameters().matrix_words(),
        }
    }

    /// A recorded derivation with random contents, a matrix that fits exactly, and a record that did before request #108.
    pub fn recorded(&self, random: &mut Random) -> Question {
        self.recorded_of(self.given(random))
    }

    pub fn recorded_of(&self, given: Given) -> Question {
        self.listed_of(given, false)
    }

    fn listed_of(&self, given: Given, in_full: bool) -> Question {
        Question::DeriveRecorded {
            given,
            key_len: self.key_len,
            record_words: unpacked_words(&self.parameters()),
            in_full,
        }
    }

    pub fn cost(&self) -> Question {
        Question::Cost {
            given: self.parameters(),
            rho: self.settings.map(|settings| settings.rho),
        }
    }
}

/// All groups, one after the other.
pub fn questions() -> Vec<Question> {
    [
        in_full(),
        block_edges(),
        salt_lengths(),
        key_lengths(),
        first_rows(),
        rows_around_powers_of_two(),
        columns(),
        time_costs(),
        corners(),
        large(),
        spare_words(11, &[(1, 3, 1), (2, 5, 3)]),
        plain_contents(),
        plain_derivations(13, &a_few_shapes()),
        checks(14, &a_few_shapes()),
        costs(),
        walks(),
        walk_programs(),
    ]
    .concat()
}

/// Small derivations whose matrix and record are listed word by word.
fn in_full() -> Vec<Question> {
    let sizes = [
        (1, 3, 1),
        (1, 3, 2),
        (1, 3, 3),
        (1, 4, 1),
        (1, 4, 2),
        (1, 5, 3),
        (2, 3, 1),
        (2, 4, 2),
        (2, 6, 2),
        (1, 9, 1),
        (1, 17, 1),
        (3, 3, 4),
    ];
    listed_in_full(1, &sizes.map(|(t, r, c)| Shape { t, r, c, ..BASE }))
}

pub(super) fn listed_in_full(seed: u64, shapes: &[Shape]) -> Vec<Question> {
    let mut random = Random::new(seed);
    let listed = |shape: &Shape| shape.listed_of(shape.given(&mut random), true);
    shapes.iter().map(listed).collect()
}

/// Password lengths on both sides of every change in the number of input blocks, for several salts.
fn block_edges() -> Vec<Question> {
    let mut random = Random::new(2);
    let mut questions = Vec::new();
    for salt_len in [8, 9, 16, 31, 32, 33, 63, 64] {
        for password_len in 0..=1024 {
            // 63: a single byte of padding. 0: a block of padding alone. 1: one past it.
            let at_edge = [63, 0, 1].contains(&((password_len + salt_len + 24) % 64));
            if at_edge || [0, 1, 1023, 1024].contains(&password_len) {
                let shape = Shape {
                    password_len,
                    salt_len,
                    r: 3 + password_len % 3,
                    c: 1 + password_len % 2,
                    ..BASE
                };
                questions.push(shape.recorded(&mut random));
            }
        }
    }
    questions
}

fn salt_lengths() -> Vec<Question> {
    let mut random = Random::new(3);
    let shapes = (8..=64).map(|salt_len| Shape { salt_len, ..BASE });
    shapes.map(|shape| shape.recorded(&mut random)).collect()
}

/// Every short key, and the lengths around each multiple of a piece of 96 bytes.
fn key_lengths() -> Vec<Question> {
    let mut random = Random::new(4);
    (1..=1024)
        .filter(|len| *len <= 100 || (len + 1) % 96 <= 2 || *len >= 1023)
        .map(|key_len| Shape { key_len, ..BASE }.recorded(&mut random))
        .collect()
}

/// Every number of rows over the first windows of the Setup walk.
fn first_rows() -> Vec<Question> {
    let mut random = Random::new(5);
    let mut questions = Vec::new();
    for r in 3..=80 {
        for c in [1, 2, 5] {
            questions.push(Shape { r, c, ..BASE }.recorded(&mut random));
        }
    }
    questions
}

/// The rows where the later windows of the Setup walk begin and end.
fn rows_around_powers_of_two() -> Vec<Question> {
    let mut random = Random::new(6);
    let mut questions = Vec::new();
    for power in 7..14 {
        let start = 1u64 << power;
        for r in [start - 1, start, start + 1, start + 2, start * 3 / 2] {
            let c = 1 + r % 2;
            questions.push(Shape { r, c, ..BASE }.recorded(&mut random));
        }
    }
    questions
}

fn columns() -> Vec<Question> {
    let mut random = Random::new(7);
    let shapes = (1..=256).map(|c| Shape {
        r: 3 + c % 3,
        c,
        ..BASE
    });
    shapes.map(|shape| shape.recorded(&mut random)).collect()
}

fn time_costs() -> Vec<Question> {
    let mut random = Random::new(8);
    let shapes = (1..=255).map(|t| Shape {
        t,
        r: 3 + t % 4,
        c: 1 + t % 3,
        ..BASE
    });
    shapes.map(|shape| shape.recorded(&mut random)).collect()
}

/// The lowest and the highest of every size but R, in every combination.
fn corners() -> Vec<Question> {
    let mut random = Random::new(9);
    let mut questions = Vec::new();
    for set in 0..32 {
        let pick = |bit: u32, low: u64, high: u64| if set >> bit & 1 == 0 { low } else { high };
        let shape = Shape {
            key_len: pick(0, 1, 1024),
            password_len: pick(1, 0, 1024),
            salt_len: pick(2, 8, 64),
            t: pick(3, 1, 255),
            r: 3,
            c: pick(4, 1, 256),
            ..BASE
        };
        questions.push(shape.recorded(&mut random));
    }
    questions
}

/// The largest numbers of rows, with the largest matrix last.
fn large() -> Vec<Question> {
    let mut random = Random::new(10);
    let sizes = [
        (1, 16_383, 1),
        (1, 16_384, 1),
        (2, 16_384, 1),
        (1, 16_384, 2),
        (1, 16_383, 3),
        (1, 1_000, 100),
        (10, 500, 20),
        (255, 1_024, 1),
        (1, 16_384, 256),
    ];
    let shapes = sizes.map(|(t, r, c)| Shape { t, r, c, ..BASE });
    shapes.map(|shape| shape.recorded(&mut random)).to_vec()
}

/// Lent buffers longer than the used parts.
fn spare_words(seed: u64, sizes: &[(u64, u64, u64)]) -> Vec<Question> {
    let mut random = Random::new(seed);
    let mut questions = Vec::new();
    for (matrix_spare, record_spare) in [(1, 0), (0, 1), (1, 1), (11, 7), (12, 8), (1000, 1000)] {
        for &(t, r, c) in sizes {
            let shape = Shape { t, r, c, ..BASE };
            let mut given = shape.given(&mut random);
            given.matrix_words += matrix_spare;
            questions.push(Question::DeriveRecorded {
                given,
                key_len: shape.key_len,
                record_words: unpacked_words(&shape.parameters()) + record_spare,
                in_full: false,
            });
        }
    }
    questions
}

/// Contents that a reader can type: text, zeros and ones.
fn plain_contents() -> Vec<Question> {
    plain_contents_of(&BASE)
}

pub(super) fn plain_contents_of(shape: &Shape) -> Vec<Question> {
    let contents: [(&[u8], &[u8]); 8] = [
        (b"password", b"saltsalt"),
        (b"", b"saltsalt"),
        (b"correct horse battery staple", b"0123456789abcdef"),
        (b"Lyra2", b"Lyra2 reference salt"),
        (&[0x00; 13], &[0x00; 16]),
        (&[0xff; 13], &[0xff; 16]),
        (&[0x80; 40], &[0x80; 64]),
        (&[0x00; 72], &[0x00; 32]),
    ];
    let recorded = |(password, salt): (&[u8], &[u8])| {
        let mut given = shape.given(&mut Random::new(12));
        given.password = Bytes::Listed(password.to_vec());
        given.salt = Bytes::Listed(salt.to_vec());
        shape.recorded_of(given)
    };
    contents.map(recorded).to_vec()
}

/// Shapes for the operations that the recorded derivation already stands for.
fn a_few_shapes() -> Vec<Shape> {
    let sizes = [(1, 3, 1), (1, 4, 2), (2, 7, 3), (1, 33, 4), (5, 3, 16)];
    let mut shapes = Vec::new();
    for (t, r, c) in sizes {
        for (password_len, key_len) in [(0, 1), (24, 32), (23, 96), (100, 97)] {
            shapes.push(Shape {
                password_len,
                key_len,
                t,
                r,
                c,
                ..BASE
            });
        }
    }
    shapes
}

fn plain_derivations(seed: u64, shapes: &[Shape]) -> Vec<Question> {
    let mut random = Random::new(seed);
    let derive = |shape: &Shape| Question::Derive {
        given: shape.given(&mut random),
        key_len: shape.key_len,
    };
    shapes.iter().map(derive).collect()
}

/// The right key, and keys that differ from it in the first bit, in the last bit or everywhere.
fn checks(seed: u64, shapes: &[Shape]) -> Vec<Question> {
    let mut random = Random::new(seed);
    let mut questions = Vec::new();
    for shape in shapes {
        let given = shape.given(&mut random);
        let key = derived_key(&given, shape.key_len);
        let mut first = key.clone();
        first[0] ^= 0x01;
        let mut last = key.clone();
        last[key.len() - 1] ^= 0x80;
        let every: Vec<_> = key.iter().map(|byte| !byte).collect();
        for stored in [key, first, last, every] {
            questions.push(Question::Check {
                given: given.clone(),
                stored: Bytes::Listed(stored),
            });
        }
    }
    questions
}

/// The right key; where a derivation is refused, the zeros that stand there then fail the case.
fn derived_key(given: &Given, key_len: u64) -> Vec<u8> {
    let inputs = Inputs {
        password: &given.password.to_vec(),
        salt: &given.salt.to_vec(),
        t: given.t,
        r: given.r,
        c: given.c,
        settings: given.settings(),
    };
    let mut key = vec![0; key_len as usize];
    let mut matrix = vec![0; given.matrix_words as usize];
    let _ = crate::derive(&inputs, &mut key, &mut matrix);
    key
}

fn cost(given: Parameters) -> Question {
    Question::Cost { given, rho: None }
}

/// Costs at every limit, around the block edges and around the pieces of the key.
fn costs() -> Vec<Question> {
    let mut given = Vec::new();
    let base = BASE.parameters();
    for key_len in [1, 2, 95, 96, 97, 191, 192, 193, 959, 960, 961, 1023, 1024] {
        given.push(Parameters { key_len, ..base });
    }
    for password_len in [0, 1, 23, 24, 25, 87, 88, 89, 983, 984, 985, 1023, 1024] {
        given.push(Parameters {
            password_len,
            ..base
        });
    }
    for salt_len in [8, 9, 26, 27, 28, 63, 64] {
        given.push(Parameters { salt_len, ..base });
    }
    for t in [1, 2, 127, 128, 254, 255] {
        given.push(Parameters { t, ..base });
    }
    for r in [3, 4, 255, 256, 16_383, 16_384] {
        given.push(Parameters { r, ..base });
    }
    for c in [1, 2, 127, 128, 255, 256] {
        given.push(Parameters { c, ..base });
    }
    given.push(Parameters {
        key_len: 1024,
        password_len: 1024,
        salt_len: 64,
        t: 255,
        r: 16_384,
        c: 256,
    });
    given.into_iter().map(cost).collect()
}

/// The walk over the first windows, and where the later ones begin and end.
fn walks() -> Vec<Question> {
    let mut questions = Vec::new();
    for row0 in 3..=130 {
        questions.push(Question::Walk { r: 16_384, row0 });
    }
    for power in 2..14 {
        let start = 1u64 << power;
        for row0 in [start, start + 1, start * 2 - 1] {
            questions.push(Question::Walk { r: row0 + 1, row0 });
        }
    }
    questions
}

fn walk_programs() -> Vec<Question> {
    (3..=40)
        .chain([99, 100, 999, 1000, 9999, 10_000, 16_383, 16_384])
        .map(|r| Question::WalkProgram {
            input: format!("{r}\n").into_bytes(),
        })
        .collect()
}

/// The shape that the groups without visits vary.
const SETUP_ALONE: Shape = Shape { t: 0, ..BASE };

/// T = 0: Setup alone, an empty record.
pub fn without_visits() -> Vec<Question> {
    let in_full = [
        (3, 1),
        (3, 2),
        (3, 3),
        (4, 1),
        (4, 2),
        (5, 3),
        (9, 1),
        (17, 1),
    ];
    let setup_alone = |(r, c)| Shape {
        r,
        c,
        ..SETUP_ALONE
    };
    let plain = [(3, 1), (4, 2), (33, 4)].map(setup_alone);
    [
        listed_in_full(15, &in_full.map(setup_alone)),
        recorded_without_visits(),
        spare_words(17, &[(0, 3, 1), (0, 5, 3)]),
        plain_derivations(18, &plain),
        checks(19, &plain),
        costs_without_visits(),
    ]
    .concat()
}

/// Rows over the first windows and at the limit, columns, lengths around the edges, and random sizes.
fn recorded_without_visits() -> Vec<Question> {
    let mut random = Random::new(16);
    let base = SETUP_ALONE;
    let mut shapes = Vec::new();
    for r in (3..=40).chain([63, 64, 65, 16_383, 16_384]) {
        let c = 1 + r % 3;
        shapes.push(Shape { r, c, ..base });
    }
    for c in [3, 7, 8, 127, 128, 255, 256] {
        shapes.push(Shape { c, ..base });
    }
    for key_len in [1, 95, 96, 97, 191, 192, 193, 1023, 1024] {
        shapes.push(Shape { key_len, ..base });
    }
    for salt_len in [8, 9, 63, 64] {
        // The limits, and both sides of the lengths with which the input fills two or three blocks.
        let (two, three) = (128 - 24 - salt_len, 192 - 24 - salt_len);
        let edges = (two - 1..=two + 1).chain(three - 1..=three + 1);
        for password_len in edges.chain([0, 1, 1023, 1024]) {
            shapes.push(Shape {
                password_len,
                salt_len,
                ..base
            });
        }
    }
    for _ in 0..100 {
        shapes.push(Shape {
            password_len: random.between(0, 200),
            salt_len: random.between(8, 64),
            key_len: random.between(1, 200),
            r: random.between(3, 300),
            c: random.between(1, 16),
            ..base
        });
    }
    let recorded = shapes.iter().map(|shape| shape.recorded(&mut random));
    recorded.collect()
}

fn costs_without_visits() -> Vec<Question> {
    let base = SETUP_ALONE.parameters();
    let longest = Parameters {
        key_len: 1024,
        password_len: 1024,
        salt_len: 64,
        ..base
    };
    let mut given = Vec::new();
    for (r, c) in [(3, 1), (3, 256), (16_384, 1), (16_384, 256)] {
        given.push(Parameters { r, c, ..base });
        given.push(Parameters { r, c, ..longest });
    }
    given.into_iter().map(cost).collect()
}

/// The shortest and the longest salt in every operation, with visits and without.
pub fn with_limit_salts() -> Vec<Question> {
    let mut random = Random::new(20);
    // A key length that no other group has with these salts, so that no question is asked again.
    let shapes = [(8, 0), (8, 1), (64, 0), (64, 1)].map(|(salt_len, t)| Shape {
        salt_len,
        t,
        key_len: 24,
        ..BASE
    });
    [
        shapes.map(|shape| shape.recorded(&mut random)).to_vec(),
        plain_derivations(21, &shapes),
        checks(22, &shapes),
        shapes.map(|shape| shape.cost()).to_vec(),
    ]
    .concat()
}

/// Matrices that are wiped: each shape as a recorded derivation, which keeps its end matrix, then with the same
/// inputs and as many lent words as a plain derivation, as a check of the key and as a check of another key.
pub fn wiped() -> Vec<Question> {
    let mut random = Random::new(28);
    let mut questions = Vec::new();
    for (shape, spare_words) in wiped_shapes(&mut random) {
        questions.extend(four_ways(&shape, spare_words, &mut random));
    }
    questions
}

/// One input, with words lent past the used matrix: as a recorded derivation, as a plain one, as a check of the key
/// and as a check of another.
pub(super) fn four_ways(shape: &Shape, spare_words: u64, random: &mut Random) -> [Question; 4] {
    let mut given = shape.given(random);
    given.matrix_words += spare_words;
    let key = derived_key(&given, shape.key_len);
    let mut other = key.clone();
    other[random.between(0, shape.key_len - 1) as usize] ^= 1 << random.between(0, 7);
    let check = |stored| Question::Check {
        given: given.clone(),
        stored: Bytes::Listed(stored),
    };
    [
        shape.recorded_of(given.clone()),
        Question::Derive {
            given: given.clone(),
            key_len: shape.key_len,
        },
        check(key),
        check(other),
    ]
}

/// Shapes with the words that are lent past the used matrix: the limits of the key, of R and of C, with visits and
/// without, in matrices that fit exactly, with a word more and with many more; then random ones.
fn wiped_shapes(random: &mut Random) -> Vec<(Shape, u64)> {
    let smallest = Shape { r: 3, c: 1, ..BASE };
    let mut shapes = Vec::new();
    for t in [0, 1] {
        let smallest = Shape { t, ..smallest };
        for key_len in [1, 96, 97, 1024] {
            shapes.push((
                Shape {
                    key_len,
                    ..smallest
                },
                0,
            ));
        }
        for spare_words in [1, 12, 500] {
            shapes.push((smallest, spare_words));
        }
        for spare_words in [0, 1] {
            let widest = Shape { c: 256, ..smallest };
            shapes.push((widest, spare_words));
        }
    }
    for spare_words in [1, 12, 500] {
        shapes.push((Shape { r: 5, c: 3, ..BASE }, spare_words));
    }
    for _ in 0..6 {
        let shape = Shape {
            password_len: random.between(0, 150),
            salt_len: random.between(8, 64),
            key_len: random.between(1, 200),
            t: random.between(0, 3),
            r: random.between(3, 20),
            c: random.between(1, 8),
            ..BASE
        };
        shapes.push((shape, random.between(0, 40)));
    }
    shapes
}
