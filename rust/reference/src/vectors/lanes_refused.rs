//! The questions of the vectors file about lanes that are refused: each limit, which numbers of rows and lanes go together, and
//! which of two refusals goes first.
//!
//! The contents of passwords, salts and stored keys do not matter here, so that all are zeros.

use super::case::{Bytes, LanesGiven, Question};
use super::lanes::Shape;
use crate::refusal::Refusal;

/// The sizes of a call, and its matrix.
#[derive(Clone, Copy)]
struct Call {
    shape: Shape,
    matrix_words: u64,
}

/// An accepted call whose matrix fits exactly; the input fills its block but for one byte.
const FITTING: Call = Call {
    shape: Shape {
        key_len: 32,
        password_len: 23,
        salt_len: 8,
        t: 1,
        r: 8,
        c: 1,
        p: 2,
    },
    matrix_words: 96,
};

impl Call {
    /// The accepted call with other rows and lanes, and with as many words as these rows use.
    fn with_lanes(p: u64, r: u64) -> Call {
        Call {
            shape: Shape {
                p,
                r,
                ..FITTING.shape
            },
            matrix_words: 12 * r,
        }
    }

    fn given(&self) -> LanesGiven {
        let shape = self.shape;
        LanesGiven {
            password: Bytes::Zeros(shape.password_len),
            salt: Bytes::Zeros(shape.salt_len),
            t: shape.t,
            r: shape.r,
            c: shape.c,
            p: shape.p,
            matrix_words: self.matrix_words,
        }
    }

    fn derive(&self) -> Question {
        Question::LanesDerive {
            given: self.given(),
            key_len: self.shape.key_len,
        }
    }

    fn check(&self) -> Question {
        Question::LanesCheck {
            given: self.given(),
            stored: Bytes::Zeros(self.shape.key_len),
        }
    }

    /// The operations that have this check among theirs.
    fn with_check(&self, check: Refusal) -> Vec<Question> {
        let mut questions = vec![self.derive(), self.check(), self.shape.cost()];
        questions.retain(|question| question.checks().contains(&check));
        questions
    }
}

/// All groups, one after the other.
pub fn questions() -> Vec<Question> {
    [
        numbers_of_lanes(),
        rows_of_lanes(),
        table_of_rows_and_lanes(),
        single(),
        short_matrices(),
        pairs(),
        all_from_one_on(),
        cost_lengths(),
    ]
    .concat()
}

/// Rows that would go with the number of lanes, were it allowed; some of these numbers would pass if cut to 8, 16 or 32 bits.
fn numbers_of_lanes() -> Vec<Question> {
    let calls = [
        (0, 8),
        (9, 36),
        (9, 72),
        (10, 80),
        (16, 128),
        (1 << 8 | 2, 2_064),
        (1 << 16 | 2, 8),
        (1 << 32, 8),
        (1 << 32 | 2, 8),
        (1 << 63 | 2, 8),
        (u64::MAX, 8),
    ];
    let questions = |(p, r)| Call::with_lanes(p, r).with_check(Refusal::Lanes);
    calls.into_iter().flat_map(questions).collect()
}

/// Rows that do not go with their number of lanes.
fn rows_of_lanes() -> Vec<Question> {
    // Odd, and but for that all right if quotients are rounded down, or nothing else.
    let odd = [
        (1, 3),
        (1, 5),
        (1, 16_383),
        (2, 9),
        (3, 15),
        (4, 17),
        (8, 33),
    ];
    // Most are a multiple of the lanes, but only twice as many rows would be one of twice the lanes.
    let unequal = [
        (2, 10),
        (3, 16),
        (4, 20),
        (5, 24),
        (6, 30),
        (7, 30),
        (8, 40),
        (8, 16_376),
    ];
    // Two rows a lane have no other fault; three are odd or make no two halves; none and one.
    let few = [
        (2, 4),
        (3, 6),
        (4, 8),
        (5, 10),
        (6, 12),
        (7, 14),
        (8, 16),
        (2, 6),
        (4, 12),
        (6, 18),
        (8, 24),
        (8, 8),
        (8, 4),
    ];
    let calls = [&odd[..], &unequal, &few].concat();
    let questions = |(p, r)| {
        let call = Call::with_lanes(p, r);
        [call.derive(), call.check()]
    };
    calls.into_iter().flat_map(questions).collect()
}

/// Which of the first rows go with one to five lanes, and which around four times as many with six to eight: all are put to the
/// cost question, whether it accepts them or not.
fn table_of_rows_and_lanes() -> Vec<Question> {
    let mut calls = Vec::new();
    for p in 1..=5 {
        calls.extend((3..=20).map(|r| (p, r)));
    }
    for p in 6..=8 {
        calls.extend((4 * p - 2..=4 * p + 2).map(|r| (p, r)));
        calls.extend([(p, 5 * p), (p, 6 * p)]);
    }
    let question = |(p, r)| Call::with_lanes(p, r).shape.cost();
    calls.into_iter().map(question).collect()
}

/// The most words that are lent for rows or columns above their limits.
const MOST_WORDS: u64 = 200_000;

/// One condition at a time; the matrix would do, unless it had to be long. Some values would pass if cut to 8, 16 or 32 bits.
fn single() -> Vec<Question> {
    let base = FITTING.shape;
    let mut calls: Vec<(Refusal, Shape)> = Vec::new();
    for key_len in [0, 1025] {
        calls.push((Refusal::KeyLength, Shape { key_len, ..base }));
    }
    for password_len in [1025, 2048] {
        let shape = Shape {
            password_len,
            ..base
        };
        calls.push((Refusal::PasswordLength, shape));
    }
    for salt_len in [0, 7] {
        calls.push((Refusal::SaltTooShort, Shape { salt_len, ..base }));
    }
    for salt_len in [65, 264] {
        calls.push((Refusal::SaltTooLong, Shape { salt_len, ..base }));
    }
    for t in [0, 256, 257, 1 << 32 | 1, u64::MAX] {
        calls.push((Refusal::TimeCost, Shape { t, ..base }));
    }
    for r in [0, 2, 16_388, 1 << 16 | 8, 1 << 32 | 8, u64::MAX - 7] {
        calls.push((Refusal::Rows, Shape { r, ..base }));
    }
    for c in [0, 257, 1 << 32 | 1, u64::MAX] {
        calls.push((Refusal::Columns, Shape { c, ..base }));
    }
    let questions = |(check, shape): &(Refusal, Shape)| {
        let needed = shape.parameters().matrix_words();
        let call = Call {
            shape: *shape,
            matrix_words: needed.clamp(FITTING.matrix_words, MOST_WORDS),
        };
        call.with_check(*check)
    };
    calls.iter().flat_map(questions).collect()
}

/// Matrices that lack a single word, or that would be enough for all lanes but one.
fn short_matrices() -> Vec<Question> {
    let mut questions = Vec::new();
    for (p, r, c) in [
        (1, 4, 1),
        (2, 8, 3),
        (3, 12, 1),
        (4, 48, 5),
        (7, 28, 256),
        (8, 32, 2),
    ] {
        let mut call = Call::with_lanes(p, r);
        call.shape.c = c;
        call.matrix_words = 12 * r * c - 1;
        questions.extend([call.derive(), call.check()]);
        call.matrix_words = 12 * (r - r / p) * c;
        questions.push(call.derive());
    }
    questions
}

/// The size that a check is about.
#[derive(Clone, Copy)]
enum Size {
    Key,
    Password,
    Salt,
    TimeCost,
    Rows,
    Columns,
    Lanes,
    Matrix,
}

/// The sizes in the order of their checks.
const SIZES: [Size; 8] = [
    Size::Key,
    Size::Password,
    Size::Salt,
    Size::TimeCost,
    Size::Rows,
    Size::Columns,
    Size::Lanes,
    Size::Matrix,
];

/// Takes a size out of its limits, from below or from above, and returns the check that turns it down. There are always too many
/// columns, because no matrix is too short for none.
fn make_hold(call: &mut Call, size: Size, from_above: bool) -> Refusal {
    let pick = |below, above| if from_above { above } else { below };
    let shape = &mut call.shape;
    let (place, value, check) = match (size, from_above) {
        (Size::Key, _) => (&mut shape.key_len, pick(0, 1025), Refusal::KeyLength),
        (Size::Password, _) => (&mut shape.password_len, 1025, Refusal::PasswordLength),
        (Size::Salt, false) => (&mut shape.salt_len, 7, Refusal::SaltTooShort),
        (Size::Salt, true) => (&mut shape.salt_len, 65, Refusal::SaltTooLong),
        (Size::TimeCost, _) => (&mut shape.t, pick(0, 256), Refusal::TimeCost),
        (Size::Rows, _) => (&mut shape.r, pick(2, u64::MAX), Refusal::Rows),
        (Size::Columns, _) => (&mut shape.c, pick(257, u64::MAX), Refusal::Columns),
        (Size::Lanes, _) => (&mut shape.p, pick(0, 9), Refusal::Lanes),
        (Size::Matrix, _) => (&mut call.matrix_words, pick(0, 95), Refusal::MatrixWords),
    };
    *place = value;
    check
}

/// Every two conditions at once, put to the operations that have both.
fn pairs() -> Vec<Question> {
    let mut questions = Vec::new();
    for (place, first) in SIZES.iter().enumerate() {
        for (later_place, second) in SIZES.iter().enumerate().skip(place + 1) {
            let mut call = FITTING;
            make_hold(&mut call, *first, later_place % 2 == 1);
            let check = make_hold(&mut call, *second, place % 2 == 1);
            questions.extend(call.with_check(check));
        }
    }
    questions
}

/// Each condition and every one after it.
fn all_from_one_on() -> Vec<Question> {
    let mut questions = Vec::new();
    for (place, first) in SIZES.iter().enumerate() {
        for from_above in [false, true] {
            let mut call = FITTING;
            let check = make_hold(&mut call, *first, from_above);
            for later in &SIZES[place + 1..] {
                make_hold(&mut call, *later, from_above);
            }
            questions.extend(call.with_check(check));
        }
    }
    questions
}

/// Lengths that no buffer has, which the cost question can still be asked about.
fn cost_lengths() -> Vec<Question> {
    let base = FITTING.shape;
    let mut shapes = Vec::new();
    for key_len in [1 << 32 | 32, u64::MAX] {
        shapes.push(Shape { key_len, ..base });
    }
    for password_len in [1 << 32, u64::MAX] {
        shapes.push(Shape {
            password_len,
            ..base
        });
    }
    for salt_len in [1 << 32 | 8, u64::MAX] {
        shapes.push(Shape { salt_len, ..base });
    }
    shapes.iter().map(Shape::cost).collect()
}
