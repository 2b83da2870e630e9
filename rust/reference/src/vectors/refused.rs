//! The questions of the vectors file that are refused: each limit, and which of two refusals goes first.
//!
//! The contents of passwords, salts and stored keys do not matter here, so that all are zeros.

use super::case::{Bytes, Given, NamedSettings, Question};
use super::random::Random;
use super::record::{self, unpacked_words};
use crate::input::Parameters;
use crate::refusal::Refusal;
use crate::settings::Mixer;

/// The sizes of a call, and its settings where the line is to name them.
#[derive(Clone, Copy)]
struct Sizes {
    key_len: u64,
    password_len: u64,
    salt_len: u64,
    t: u64,
    r: u64,
    c: u64,
    settings: Option<NamedSettings>,
    matrix_words: u64,
    record_words: u64,
}

/// The usual rounds and rotation, named.
const USUAL_PAIR: NamedSettings = NamedSettings::pair(1, 2);

/// An accepted call whose matrix fits exactly, and whose record did before request #108.
const FITTING: Sizes = Sizes {
    key_len: 32,
    password_len: 31,
    salt_len: 8,
    t: 1,
    r: 3,
    c: 1,
    settings: None,
    matrix_words: 36,
    record_words: 12,
};

impl Sizes {
    fn given(&self) -> Given {
        Given {
            password: Bytes::Zeros(self.password_len),
            salt: Bytes::Zeros(self.salt_len),
            t: self.t,
            r: self.r,
            c: self.c,
            settings: self.settings,
            matrix_words: self.matrix_words,
        }
    }

    /// The settings, which the line then names.
    fn settings(&mut self) -> &mut NamedSettings {
        self.settings.get_or_insert(USUAL_PAIR)
    }

    fn recorded(&self) -> Question {
        Question::DeriveRecorded {
            given: self.given(),
            key_len: self.key_len,
            record_words: self.record_words,
            in_full: false,
        }
    }

    fn plain(&self) -> Question {
        Question::Derive {
            given: self.given(),
            key_len: self.key_len,
        }
    }

    fn check(&self) -> Question {
        Question::Check {
            given: self.given(),
            stored: Bytes::Zeros(self.key_len),
        }
    }

    fn cost(&self) -> Question {
        Question::Cost {
            given: self.parameters(),
            rho: self.settings.map(|settings| settings.rho),
        }
    }

    fn parameters(&self) -> Parameters {
        self.given().parameters(self.key_len)
    }

    /// The same with the usual rounds and rotation and this mixer, which the line then names.
    fn with_mixer(self, mixer: Mixer) -> Sizes {
        let settings = NamedSettings {
            mixer: Some(mixer),
            ..USUAL_PAIR
        };
        Sizes {
            settings: Some(settings),
            ..self
        }
    }

    /// The same with a matrix that fits exactly, and a record that did before request #108.
    fn fitting(self) -> Sizes {
        let parameters = self.parameters();
        Sizes {
            matrix_words: parameters.matrix_words(),
            record_words: unpacked_words(&parameters),
            ..self
        }
    }

    /// Every operation that takes these sizes.
    fn questions(&self) -> Vec<Question> {
        vec![self.recorded(), self.plain(), self.check(), self.cost()]
    }

    /// The operations that have this check among theirs.
    fn with_check(&self, check: Refusal) -> Vec<Question> {
        let mut questions = self.questions();
        questions.retain(|question| question.checks().contains(&check));
        questions
    }
}

/// All groups, one after the other.
pub fn questions() -> Vec<Question> {
    [
        single(),
        short_buffers(),
        largest_buffers(),
        pairs(),
        all_from_one_on(FITTING, &SIZES),
        cost_lengths(),
        walks(),
        walk_programs(),
    ]
    .concat()
}

/// One condition at a time. Some values would pass if cut to 8, 16 or 32 bits.
fn single() -> Vec<Question> {
    let base = FITTING;
    let mut calls: Vec<(Refusal, Sizes)> = Vec::new();
    for key_len in [0, 1025, 1026, 1056, 65_537] {
        calls.push((Refusal::KeyLength, Sizes { key_len, ..base }));
    }
    for password_len in [1025, 1026, 2048, 65_536] {
        let sizes = Sizes {
            password_len,
            ..base
        };
        calls.push((Refusal::PasswordLength, sizes));
    }
    for salt_len in [0, 1, 6, 7] {
        calls.push((Refusal::SaltTooShort, Sizes { salt_len, ..base }));
    }
    for salt_len in [65, 66, 264, 65_544] {
        calls.push((Refusal::SaltTooLong, Sizes { salt_len, ..base }));
    }
    // T = 0 was refused before request #101; its cases keep their places and are accepted.
    for t in [0, 256, 257, 1 << 16 | 1, 1 << 32 | 1, u64::MAX] {
        calls.push((Refusal::TimeCost, Sizes { t, ..base }));
    }
    for r in [0, 1, 2, 16_385, 1 << 16 | 3, 1 << 32 | 3, u64::MAX] {
        calls.push((Refusal::Rows, Sizes { r, ..base }));
    }
    for c in [0, 257, 1 << 16 | 1, 1 << 32 | 1, u64::MAX] {
        calls.push((Refusal::Columns, Sizes { c, ..base }));
    }
    for matrix_words in [0, 1, 12, 24, 35] {
        let sizes = Sizes {
            matrix_words,
            ..base
        };
        calls.push((Refusal::MatrixWords, sizes));
    }
    // 8 and 11 words were refused before request #108; their cases are accepted.
    for record_words in [0, 1, 4, 8, 11] {
        let sizes = Sizes {
            record_words,
            ..base
        };
        calls.push((Refusal::RecordWords, sizes));
    }
    calls
        .iter()
        .flat_map(|(check, sizes)| sizes.with_check(*check))
        .collect()
}

/// Matrices that lack a single word, and records that did before request #108, for several shapes.
fn short_buffers() -> Vec<Question> {
    let mut questions = Vec::new();
    for (t, r, c) in [
        (2, 3, 1),
        (255, 3, 1),
        (1, 4, 1),
        (1, 3, 2),
        (3, 5, 7),
        (1, 17, 16),
        (1, 3, 256),
        (1, 16_384, 1),
    ] {
        let shape = Sizes { t, r, c, ..FITTING };
        let mut sizes = shape.fitting();
        sizes.record_words -= 1;
        questions.extend(sizes.with_check(Refusal::RecordWords));
        sizes.matrix_words -= 1;
        questions.extend(sizes.with_check(Refusal::MatrixWords));
        sizes.record_words += 1;
        questions.push(sizes.recorded());
    }
    questions
}

/// The largest matrix, first one word short, then with a record that was before request #108, then with none.
fn largest_buffers() -> Vec<Question> {
    let sizes = Sizes {
        r: 16_384,
        c: 256,
        matrix_words: 12 * 16_384 * 256,
        record_words: 16_384 * 514 - 1,
        ..FITTING
    };
    let one_short = Sizes {
        matrix_words: sizes.matrix_words - 1,
        record_words: 16_384 * 514,
        ..sizes
    };
    let longest = Sizes {
        t: 255,
        record_words: 0,
        ..sizes
    };
    vec![one_short.recorded(), sizes.recorded(), longest.recorded()]
}

/// The size that a check is about.
#[derive(Clone, Copy, PartialEq, Eq)]
enum Size {
    Key,
    Password,
    Salt,
    TimeCost,
    Rows,
    Columns,
    Rounds,
    Rotation,
    Matrix,
    Record,
}

/// The sizes without the settings, in the order of their checks. The groups go by these and not by the numbers of the
/// checks, so that a number that comes later changes none of their questions.
const SIZES: [Size; 8] = [
    Size::Key,
    Size::Password,
    Size::Salt,
    Size::TimeCost,
    Size::Rows,
    Size::Columns,
    Size::Matrix,
    Size::Record,
];

fn all_but(left_out: &[Size]) -> Vec<Size> {
    let kept = |size: &Size| !left_out.contains(size);
    SIZES.into_iter().filter(kept).collect()
}

/// Takes a size out of its limits, from below or from above, and returns the check that turns it down. Only T = 0 and a
/// record of 11 words, once refused, are not turned down, and the next condition is then the first that holds.
fn make_hold(sizes: &mut Sizes, size: Size, from_above: bool) -> Refusal {
    let pick = |below, above| if from_above { above } else { below };
    let (place, value, check) = match (size, from_above) {
        (Size::Key, _) => (&mut sizes.key_len, pick(0, 1025), Refusal::KeyLength),
        (Size::Password, _) => (&mut sizes.password_len, 1025, Refusal::PasswordLength),
        (Size::Salt, false) => (&mut sizes.salt_len, 7, Refusal::SaltTooShort),
        (Size::Salt, true) => (&mut sizes.salt_len, 65, Refusal::SaltTooLong),
        (Size::TimeCost, _) => (&mut sizes.t, pick(0, u64::MAX), Refusal::TimeCost),
        (Size::Rows, _) => (&mut sizes.r, pick(2, u64::MAX), Refusal::Rows),
        (Size::Columns, _) => (&mut sizes.c, pick(0, u64::MAX), Refusal::Columns),
        (Size::Rounds, _) => (&mut sizes.settings().rho, pick(0, 13), Refusal::Rounds),
        (Size::Rotation, _) => (&mut sizes.settings().omega, pick(0, 12), Refusal::Rotation),
        (Size::Matrix, _) => (&mut sizes.matrix_words, pick(0, 35), Refusal::MatrixWords),
        (Size::Record, _) => (&mut sizes.record_words, pick(0, 11), Refusal::RecordWords),
    };
    *place = value;
    check
}

/// Every two conditions at once.
fn pairs() -> Vec<Question> {
    let mut questions = Vec::new();
    for (place, first) in SIZES.iter().enumerate() {
        for (later_place, second) in SIZES.iter().enumerate().skip(place + 1) {
            let mut sizes = FITTING;
            make_hold(&mut sizes, *first, later_place % 2 == 1);
            let check = make_hold(&mut sizes, *second, place % 2 == 1);
            questions.extend(sizes.with_check(check));
        }
    }
    questions
}

/// Each of some conditions and every one after it, added to what holds already.
fn all_from_one_on(base: Sizes, among: &[Size]) -> Vec<Question> {
    let mut questions = Vec::new();
    for (place, first) in among.iter().enumerate() {
        for from_above in [false, true] {
            let mut sizes = base;
            let check = make_hold(&mut sizes, *first, from_above);
            for later in &among[place + 1..] {
                make_hold(&mut sizes, *later, from_above);
            }
            questions.extend(sizes.with_check(check));
        }
    }
    questions
}

/// Each of some conditions, added to what holds already.
fn with_each(base: Sizes, among: &[Size], sides: &[bool]) -> Vec<Question> {
    let mut questions = Vec::new();
    for size in among {
        for from_above in sides {
            let mut sizes = base;
            let check = make_hold(&mut sizes, *size, *from_above);
            questions.extend(sizes.with_check(check));
        }
    }
    questions
}

/// Lengths that no buffer has, which the cost question can still be asked about.
fn cost_lengths() -> Vec<Question> {
    let base = FITTING;
    let mut calls = Vec::new();
    for key_len in [1 << 32 | 32, u64::MAX] {
        calls.push(Sizes { key_len, ..base });
    }
    for password_len in [1 << 32, u64::MAX] {
        calls.push(Sizes {
            password_len,
            ..base
        });
    }
    for salt_len in [1 << 32 | 8, u64::MAX] {
        calls.push(Sizes { salt_len, ..base });
    }
    calls.iter().map(Sizes::cost).collect()
}

/// The walk question's two refusals, alone and together.
fn walks() -> Vec<Question> {
    let mut questions = Vec::new();
    for r in [0, 1, 2, 16_385, 1 << 16 | 8, 1 << 32 | 8, u64::MAX] {
        for row0 in [2, 3, 7, u64::MAX] {
            questions.push(Question::Walk { r, row0 });
        }
    }
    for r in [3, 4, 8, 16_384] {
        for row0 in [0, 1, 2, r, r + 1, 1 << 32 | 3, u64::MAX] {
            questions.push(Question::Walk { r, row0 });
        }
    }
    questions
}

/// Inputs of the walk program that are outside the limits or not of its form.
const REFUSED_INPUTS: [&[u8]; 31] = [
    b"",
    b"\n",
    b"8",
    b"8\n\n",
    b"8\r\n",
    b" 8\n",
    b"8 \n",
    b"+8\n",
    b"-8\n",
    b"08\n",
    b"00008\n",
    b"0\n",
    b"1\n",
    b"2\n",
    b"16385\n",
    b"65539\n",
    b"99999\n",
    b"016384\n",
    b"100000\n",
    b"8\n8\n",
    b"8\n ",
    b"\n8\n",
    b"8\0\n",
    b"\08\n",
    b"0x8\n",
    b"8.0\n",
    b"a\n",
    b"\xe0\xa5\xa8\n",
    b"\xff\n",
    b"4294967304\n",
    b"18446744073709551624\n",
];

fn walk_programs() -> Vec<Question> {
    let question = |input: &[u8]| Question::WalkProgram {
        input: input.to_vec(),
    };
    REFUSED_INPUTS.map(question).to_vec()
}

/// Calls with T = 0 that another check refuses, and T above its limit alone and with every other condition.
pub fn of_time_costs() -> Vec<Question> {
    let setup_alone = Sizes {
        t: 0,
        record_words: 0,
        ..FITTING
    };
    // With T = 0 no record is too short.
    let others = all_but(&[Size::TimeCost, Size::Record]);
    let mut questions = with_each(setup_alone, &others, &[false, true]);
    // Those after 256 would pass if cut to 16 or 32 bits.
    for t in [256, 1 << 16, 1 << 32] {
        let above = Sizes { t, ..FITTING };
        questions.extend(above.with_check(Refusal::TimeCost));
        let others = all_but(&[Size::TimeCost]);
        questions.extend(with_each(above, &others, &[t == 256]));
    }
    questions
}

/// Salts outside their limits: alone, with every other condition, and with all from one on; then random salts.
pub fn of_salts() -> Vec<Question> {
    // A key and a password that no other group has, so that no question is asked again.
    let base = Sizes {
        key_len: 24,
        password_len: 16,
        ..FITTING
    };
    let mut questions = Vec::new();
    // Some would pass or be too short if cut to 8, 16 or 32 bits.
    for salt_len in (0..8).chain([65, 66, 72, 128, 255, 256, 264, 320, 1000, 65_544]) {
        questions.extend(Sizes { salt_len, ..base }.questions());
    }
    for salt_len in [1 << 32 | 8, 1 << 32 | 64, 1 << 32 | 65, u64::MAX] {
        questions.push(Sizes { salt_len, ..base }.cost());
    }
    let others = all_but(&[Size::Salt]);
    // Not 7 and 65, with which the sets of all conditions stand in an earlier group.
    for salt_len in [6, 66] {
        let salted = Sizes { salt_len, ..base };
        questions.extend(with_each(salted, &others, &[false, true]));
        questions.extend(all_from_one_on(salted, &others));
    }
    questions.extend(random_salts());
    without_repeats(questions)
}

/// Salts of up to 200 bytes, and every fourth below 16; of the other sizes, one in ten is outside its limits.
fn random_salts() -> Vec<Question> {
    let mut random = Random::new(27);
    let mut questions = Vec::new();
    for number in 0..28 {
        let longest = if number % 4 == 0 { 15 } else { 200 };
        let drawn = Sizes {
            key_len: random.between(1, 200),
            password_len: random.between(0, 200),
            salt_len: random.between(0, longest),
            t: random.between(0, 3),
            r: random.between(3, 12),
            c: random.between(1, 4),
            ..FITTING
        };
        let mut sizes = drawn.fitting();
        for other in all_but(&[Size::Salt]) {
            if random.once_in(10) {
                make_hold(&mut sizes, other, random.once_in(2));
            }
        }
        questions.extend(sizes.questions());
    }
    questions
}

/// The settings together with what is checked next to them, in the order of the checks.
const AROUND_SETTINGS: [Size; 5] = [
    Size::Columns,
    Size::Rounds,
    Size::Rotation,
    Size::Matrix,
    Size::Record,
];

/// Settings outside their limits: alone, with every other condition, and with all from one on.
pub fn of_settings() -> Vec<Question> {
    let base = Sizes {
        settings: Some(USUAL_PAIR),
        ..FITTING
    };
    let with = |rho, omega| Sizes {
        settings: Some(NamedSettings::pair(rho, omega)),
        ..base
    };
    let mut questions = Vec::new();
    // Some would pass if cut to 8, 16 or 32 bits, or modulo 12.
    for rho in [
        0,
        13,
        14,
        24,
        1 << 8 | 1,
        1 << 16 | 1,
        1 << 32,
        1 << 32 | 1,
        u64::MAX,
    ] {
        questions.extend(with(rho, 2).with_check(Refusal::Rounds));
    }
    for omega in [
        0,
        12,
        13,
        14,
        23,
        1 << 8 | 2,
        1 << 16 | 2,
        1 << 32,
        1 << 32 | 2,
        u64::MAX,
    ] {
        questions.extend(with(1, omega).with_check(Refusal::Rotation));
    }
    for (rho, omega) in [(0, 0), (0, 12), (13, 0), (13, 12)] {
        questions.extend(with(rho, omega).with_check(Refusal::Rotation));
    }
    for (rho, from_above) in [(0, false), (13, true)] {
        questions.extend(with_each(with(rho, 2), &SIZES, &[from_above]));
    }
    for (omega, from_above) in [(0, true), (12, false)] {
        let mut with_rotation = with_each(with(1, omega), &SIZES, &[from_above]);
        with_rotation.retain(|question| question.checks().contains(&Refusal::Rotation));
        questions.extend(with_rotation);
    }
    questions.extend(all_from_one_on(base, &AROUND_SETTINGS));
    // A cell more than is used, which must not be wiped.
    for (rho, omega) in [(0, 2), (13, 2), (1, 0), (1, 12)] {
        let mut with_room = with(rho, omega);
        with_room.matrix_words += 12;
        questions.extend([with_room.plain(), with_room.check()]);
    }
    without_repeats(questions)
}

/// Every size, in the order of the checks.
const IN_ORDER: [Size; 10] = [
    Size::Key,
    Size::Password,
    Size::Salt,
    Size::TimeCost,
    Size::Rows,
    Size::Columns,
    Size::Rounds,
    Size::Rotation,
    Size::Matrix,
    Size::Record,
];

/// Each condition with BlaMka: alone, with the next in the order, and with others at random. The cost question takes no
/// mixer.
pub fn with_blamka() -> Vec<Question> {
    let base = FITTING.with_mixer(Mixer::BlaMka);
    let mut questions = with_each(base, &IN_ORDER, &[false, true]);
    for two in IN_ORDER.windows(2) {
        for from_above in [false, true] {
            let mut sizes = base;
            let check = make_hold(&mut sizes, two[0], from_above);
            make_hold(&mut sizes, two[1], !from_above);
            questions.extend(sizes.with_check(check));
        }
    }
    questions.extend(random_with(base));
    questions.retain(|question| !matches!(question, Question::Cost { .. }));
    without_repeats(questions)
}

/// Small sizes with the settings of a call and some words to spare; one in six is outside its limits.
fn random_with(base: Sizes) -> Vec<Question> {
    let mut random = Random::new(43);
    let mut questions = Vec::new();
    for _ in 0..12 {
        let drawn = Sizes {
            key_len: random.between(1, 200),
            password_len: random.between(0, 200),
            salt_len: random.between(8, 64),
            t: random.between(0, 3),
            r: random.between(3, 12),
            c: random.between(1, 4),
            ..base
        };
        let mut sizes = drawn.fitting();
        sizes.matrix_words += random.between(0, 12);
        for size in IN_ORDER {
            if random.once_in(6) {
                make_hold(&mut sizes, size, random.once_in(2));
            }
        }
        questions.extend(sizes.questions());
    }
    questions
}

/// Short records with either mixer: of several shapes, with every other condition, and with all from one on.
pub fn of_records() -> Vec<Question> {
    // A key that no other group has with these settings, so that no question is asked again.
    let base = Sizes {
        key_len: 24,
        ..FITTING
    };
    let others = &IN_ORDER[..IN_ORDER.len() - 1];
    let mut questions = Vec::new();
    for mixer in [Mixer::Plain, Mixer::BlaMka] {
        let named = base.with_mixer(mixer);
        let of_words = |record_words| Sizes {
            record_words,
            ..named
        };
        questions.extend((0..=5).map(|words| of_words(words).recorded()));
        questions.extend(short_records(named, &record::SHAPES));
        questions.extend(with_each(of_words(5), others, &[false, true]));
        questions.extend(all_from_one_on(of_words(5), others));
    }
    // The first of these needs 65,536 words, which are none if cut to 16 bits.
    let large = [[2, 16_384, 1], [255, 16_384, 1], [1, 16_384, 256]];
    questions.extend(short_records(base.with_mixer(Mixer::Plain), &large));
    // Only the recorded derivation has a record.
    questions.retain(|question| matches!(question, Question::DeriveRecorded { .. }));
    without_repeats(questions)
}

/// Records that lack one word or all of them, and one word of the matrix as well.
fn short_records(base: Sizes, shapes: &[[u64; 3]]) -> Vec<Question> {
    let mut questions = Vec::new();
    for &[t, r, c] in shapes {
        let mut sizes = Sizes { t, r, c, ..base }.fitting();
        sizes.record_words = 0;
        questions.push(sizes.recorded());
        sizes.record_words = sizes.parameters().record_words() - 1;
        questions.push(sizes.recorded());
        sizes.matrix_words -= 1;
        questions.push(sizes.recorded());
    }
    questions
}

/// Plain derivations and checks that are refused although the matrix would do, which must not be wiped then; only
/// with 7 it lacks a word.
pub fn with_room_to_wipe() -> Vec<Question> {
    let base = Sizes {
        key_len: 24,
        password_len: 16,
        r: 4,
        c: 2,
        ..FITTING
    };
    let outside: [fn(&mut Sizes); 9] = [
        |sizes| sizes.key_len = 0,
        |sizes| sizes.key_len = 1025,
        |sizes| sizes.password_len = 1025,
        |sizes| sizes.salt_len = 7,
        |sizes| sizes.salt_len = 65,
        |sizes| sizes.t = 256,
        |sizes| sizes.r = 2,
        |sizes| sizes.c = 0,
        |sizes| sizes.c = 257,
    ];
    let mut calls = Vec::new();
    for change in outside {
        let mut sizes = base;
        change(&mut sizes);
        // A cell more than is used, so that there is a word even where C is 0.
        sizes.matrix_words = sizes.parameters().matrix_words() + 12;
        calls.push(sizes);
    }
    let mut one_short = base.fitting();
    one_short.matrix_words -= 1;
    calls.push(one_short);
    let plain_and_check = |sizes: &Sizes| [sizes.plain(), sizes.check()];
    calls.iter().flat_map(plain_and_check).collect()
}

/// The questions without those that stand earlier: a long password has no other side, and two sets of
/// conditions may come to the same.
pub(super) fn without_repeats(questions: Vec<Question>) -> Vec<Question> {
    let mut once = Vec::new();
    for question in questions {
        if !once.contains(&question) {
            once.push(question);
        }
    }
    once
}
