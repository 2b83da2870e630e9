//! The questions of the vectors file about lanes, those that are accepted, group by group.

use super::case::{Bytes, LanesGiven, Question};
use super::random::Random;
use super::random_lanes;
use crate::input::Parameters;
use crate::{LaneInputs, Settings};

/// The sizes of a derivation with lanes.
#[derive(Clone, Copy)]
pub(super) struct Shape {
    pub password_len: u64,
    pub salt_len: u64,
    pub key_len: u64,
    pub t: u64,
    pub r: u64,
    pub c: u64,
    pub p: u64,
}

/// The shape that the groups vary.
const BASE: Shape = Shape {
    password_len: 13,
    salt_len: 16,
    key_len: 32,
    t: 1,
    r: 12,
    c: 2,
    p: 2,
};

impl Shape {
    /// So many lanes of so many rows.
    fn lanes(p: u64, lane_rows: u64) -> Shape {
        Shape {
            r: p * lane_rows,
            p,
            ..BASE
        }
    }

    pub fn parameters(&self) -> Parameters {
        Parameters {
            key_len: self.key_len,
            password_len: self.password_len,
            salt_len: self.salt_len,
            t: self.t,
            r: self.r,
            c: self.c,
        }
    }

    /// Random contents and a matrix that fits exactly.
    pub fn given(&self, random: &mut Random) -> LanesGiven {
        let password = random.bytes(self.password_len);
        let salt = random.bytes(self.salt_len);
        self.given_of(password, salt)
    }

    /// These contents and a matrix that fits exactly.
    fn given_of(&self, password: Vec<u8>, salt: Vec<u8>) -> LanesGiven {
        LanesGiven {
            password: Bytes::Listed(password),
            salt: Bytes::Listed(salt),
            t: self.t,
            r: self.r,
            c: self.c,
            p: self.p,
            matrix_words: self.parameters().matrix_words(),
        }
    }

    fn derive_of(&self, given: LanesGiven) -> Question {
        Question::LanesDerive {
            given,
            key_len: self.key_len,
        }
    }

    pub fn cost(&self) -> Question {
        Question::LanesCost {
            given: self.parameters(),
            p: self.p,
        }
    }
}

/// A derivation of each shape, with random contents.
fn derived(seed: u64, shapes: impl IntoIterator<Item = Shape>) -> Vec<Question> {
    let mut random = Random::new(seed);
    let question = |shape: Shape| shape.derive_of(shape.given(&mut random));
    shapes.into_iter().map(question).collect()
}

/// All groups, one after the other.
pub fn questions() -> Vec<Question> {
    [
        plain_contents(),
        every_number_of_lanes(),
        limits(),
        one_input_with_each_number_of_lanes(),
        input_blocks(),
        key_lengths(),
        spare_words(),
        checks(),
        costs(),
        random(),
    ]
    .concat()
}

/// Contents that can be read, with the fewest rows.
fn plain_contents() -> Vec<Question> {
    let shapes = (1..=8).map(|p| Shape::lanes(p, 4));
    let contents = (b"password".to_vec(), b"saltsalt".to_vec());
    let question = |shape: Shape| {
        let (password, salt) = contents.clone();
        shape.derive_of(shape.given_of(password, salt))
    };
    shapes.map(question).collect()
}

/// Rows with no, one and many meetings in Setup and between the visits, on both sides of 16 and 64 rows, where the
/// meetings come farther apart.
fn every_number_of_lanes() -> Vec<Question> {
    let sizes = [
        (4, 1, 1),
        (4, 2, 2),
        (6, 1, 3),
        (8, 2, 1),
        (10, 1, 2),
        (14, 3, 1),
        (16, 1, 2),
        (18, 2, 3),
        (26, 1, 1),
        (62, 2, 2),
        (66, 1, 1),
    ];
    let shapes = (1..=8).flat_map(|p| {
        sizes.map(|(lane_rows, t, c)| Shape {
            t,
            c,
            ..Shape::lanes(p, lane_rows)
        })
    });
    derived(60, shapes)
}

/// The most visits for a row, the most columns, and the most rows that there can be with some numbers of lanes.
fn limits() -> Vec<Question> {
    let mut shapes: Vec<Shape> = (1..=8)
        .map(|p| Shape {
            t: 255,
            c: 1,
            ..Shape::lanes(p, 4)
        })
        .collect();
    for (p, c) in [(1, 256), (2, 256), (3, 255), (8, 256)] {
        shapes.push(Shape {
            c,
            ..Shape::lanes(p, 4)
        });
    }
    for (p, r) in [
        (1, 16_384),
        (2, 16_384),
        (3, 16_380),
        (7, 16_380),
        (8, 16_384),
    ] {
        shapes.push(Shape { r, c: 1, p, ..BASE });
    }
    derived(61, shapes)
}

/// The fewest rows that all numbers of lanes can share, and all else the same: only p tells the keys apart.
fn one_input_with_each_number_of_lanes() -> Vec<Question> {
    let shape = Shape {
        r: 1_680,
        c: 1,
        ..BASE
    };
    let given = shape.given(&mut Random::new(62));
    (1..=8)
        .map(|p| shape.derive_of(LanesGiven { p, ..given.clone() }))
        .collect()
}

/// Passwords around the lengths with which an input of eight numbers fills one, two, three or sixteen blocks, and at the
/// limits.
fn input_blocks() -> Vec<Question> {
    let lengths = [8, 16, 64].into_iter().flat_map(|salt_len| {
        let blocks = [1, 2, 3, 16].into_iter();
        // A long salt and the eight numbers are more than one block already.
        let full = blocks.filter_map(move |count: u64| (64 * count).checked_sub(32 + salt_len));
        let edges = full.flat_map(|len| len - 1..=len + 1);
        let all = edges.chain([0, 1024]);
        all.map(move |password_len| (password_len, salt_len))
    });
    let shapes = lengths.map(|(password_len, salt_len)| Shape {
        password_len,
        salt_len,
        ..Shape::lanes(2, 4)
    });
    derived(63, shapes)
}

/// The limits, and the lengths around the first multiples of a piece of 96 bytes.
fn key_lengths() -> Vec<Question> {
    let lengths = [1, 2, 95, 96, 97, 191, 192, 193, 1023, 1024];
    let shapes = [1, 3, 8].into_iter().flat_map(|p| {
        lengths.map(|key_len| Shape {
            key_len,
            ..Shape::lanes(p, 4)
        })
    });
    derived(64, shapes)
}

/// Matrices with words to spare: one, nearly a cell and many.
fn spare_words() -> Vec<Question> {
    let mut random = Random::new(65);
    let mut questions = Vec::new();
    for p in [1, 2, 5, 8] {
        for spare in [1, 11, 100] {
            let shape = Shape::lanes(p, 6);
            let mut given = shape.given(&mut random);
            given.matrix_words += spare;
            questions.push(shape.derive_of(given));
        }
    }
    questions
}

/// What a derivation is made from, for these contents.
fn inputs<'a>(given: &LanesGiven, password: &'a [u8], salt: &'a [u8]) -> LaneInputs<'a> {
    LaneInputs {
        password,
        salt,
        t: given.t,
        r: given.r,
        c: given.c,
        p: given.p,
    }
}

/// The right key for a question that no check refuses.
pub(super) fn key_of(given: &LanesGiven, key_len: u64) -> Vec<u8> {
    let (password, salt) = (given.password.to_vec(), given.salt.to_vec());
    let mut key = vec![0; key_len as usize];
    let mut matrix = vec![0; given.parameters(key_len).matrix_words() as usize];
    // A refusal would leave the zeros, and the file's tests find such a key.
    let _ = crate::lanes_derive(&inputs(given, &password, &salt), &mut key, &mut matrix);
    key
}

/// The key of the single sponge for the same inputs.
fn single_key(given: &LanesGiven, key_len: u64) -> Vec<u8> {
    let inputs = crate::Inputs {
        password: &given.password.to_vec(),
        salt: &given.salt.to_vec(),
        t: given.t,
        r: given.r,
        c: given.c,
        settings: Settings::USUAL,
    };
    let mut key = vec![0; key_len as usize];
    let mut matrix = vec![0; given.parameters(key_len).matrix_words() as usize];
    let _ = crate::derive(&inputs, &mut key, &mut matrix);
    key
}

/// The key; the key with a bit of its first or its last byte flipped; the keys of other lanes and of the single sponge; and
/// zeros. The keys are of one byte, of one piece and of two.
fn checks() -> Vec<Question> {
    let mut random = Random::new(66);
    let mut questions = Vec::new();
    for p in 1..=8u64 {
        let key_len = [32, 97, 1][p as usize % 3];
        // Rows that the next number of lanes can share, and for 8 lanes those of 4.
        let other = if p < 8 { p + 1 } else { 4 };
        let shape = Shape {
            r: 4 * p * other,
            c: 1,
            p,
            ..BASE
        };
        let given = shape.given(&mut random);
        let key = key_of(&given, key_len);
        let with_bit = |place: usize, bit: u8| {
            let mut changed = key.clone();
            changed[place] ^= bit;
            changed
        };
        let of_others = LanesGiven {
            p: other,
            ..given.clone()
        };
        for stored in [
            key.clone(),
            with_bit(0, 0x01),
            with_bit(key.len() - 1, 0x80),
            key_of(&of_others, key_len),
            single_key(&given, key_len),
            vec![0; key.len()],
        ] {
            questions.push(Question::LanesCheck {
                given: given.clone(),
                stored: Bytes::Listed(stored),
            });
        }
    }
    questions
}

/// Checks of the key with each size at a limit, and with a matrix to spare.
pub fn checks_at_limits() -> Vec<Question> {
    let mut random = Random::new(68);
    let base = Shape::lanes(2, 4);
    let shapes = [
        Shape {
            key_len: 1024,
            ..base
        },
        Shape {
            password_len: 0,
            salt_len: 8,
            ..base
        },
        Shape {
            password_len: 1024,
            salt_len: 64,
            ..base
        },
        Shape { t: 255, ..base },
        Shape {
            r: 16_384,
            c: 1,
            p: 8,
            ..base
        },
        Shape { c: 256, ..base },
    ];
    let mut questions = Vec::new();
    for (shape, spare) in shapes.into_iter().zip([0, 1, 0, 100, 0, 12]) {
        let mut given = shape.given(&mut random);
        given.matrix_words += spare;
        let stored = Bytes::Listed(key_of(&given, shape.key_len));
        questions.push(Question::LanesCheck { given, stored });
    }
    questions
}

/// The largest costs with each number of lanes, lengths at their limits, and around a block and a piece more.
fn costs() -> Vec<Question> {
    let largest = (1..=8).map(|p| Shape {
        t: 255,
        // 16,384 is no multiple of 2·p for 3, 5, 6 and 7.
        r: 16_384 / (2 * p) * (2 * p),
        c: 256,
        p,
        ..BASE
    });
    let lengths = [
        (1, 0, 8),
        (1024, 1024, 64),
        (96, 23, 8),
        (97, 24, 8),
        (96, 95, 64),
        (97, 96, 64),
        (192, 87, 8),
        (193, 88, 8),
    ];
    let with_lengths = [1, 7].into_iter().flat_map(|p| {
        lengths.map(|(key_len, password_len, salt_len)| Shape {
            key_len,
            password_len,
            salt_len,
            ..Shape::lanes(p, 4)
        })
    });
    let shapes = largest.chain(with_lengths);
    shapes.map(|shape| shape.cost()).collect()
}

/// Random questions; some of them may be refused.
fn random() -> Vec<Question> {
    let mut random = Random::new(67);
    (0..80)
        .map(|_| random_lanes::question(&mut random))
        .collect()
}
