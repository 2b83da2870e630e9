//! Faulty programs that choose costs, made on purpose: the cases of request #109 have to notice every fault.
//!
//! What is right here goes by the quotients of the vectors' page, so that it is another program than the one behind the file.

mod common;

use lyra2_reference::refusal::CHOICE_CHECKS;
use lyra2_reference::vectors::{Answer, Case, Question};
use lyra2_reference::{Choice, Limits, Refusal};

/// What a choice goes by, in numbers that are wide enough for every product and may be below zero.
#[derive(Clone, Copy)]
struct Given {
    key_len: i128,
    password_len: i128,
    salt_len: i128,
    words: i128,
    budget: i128,
    rho: i128,
    tries: i128,
}

impl Given {
    fn new(limits: &Limits) -> Given {
        Given {
            key_len: limits.key_len.into(),
            password_len: limits.password_len.into(),
            salt_len: limits.salt_len.into(),
            words: limits.matrix_words.into(),
            budget: limits.budget.into(),
            rho: limits.rho.into(),
            tries: limits.tries.into(),
        }
    }

    fn input_bytes(&self) -> i128 {
        self.password_len + self.salt_len + 24
    }

    fn pieces(&self) -> i128 {
        (self.key_len + 95) / 96
    }

    /// The cells that the rounds left by so many full calls are enough for, and the words.
    fn cells(&self, full: i128) -> [i128; 2] {
        let left = self.budget - 12 * full;
        [left.max(0) / (2 * self.rho), self.words / 12]
    }

    /// T before it is cut to its limit.
    fn time(&self, full: i128, cells: i128) -> i128 {
        (self.budget - 12 * full) / (self.rho * cells) - 1
    }
}

/// Whether the condition of a check holds; of the last one the search tells.
fn condition(check: Refusal, given: &Given) -> bool {
    match check {
        Refusal::KeyLength => !(1..=1024).contains(&given.key_len),
        Refusal::PasswordLength => given.password_len > 1024,
        Refusal::SaltTooShort => given.salt_len < 8,
        Refusal::SaltTooLong => given.salt_len > 64,
        Refusal::Rounds => !(1..=12).contains(&given.rho),
        Refusal::Tries => given.tries == 0,
        _ => false,
    }
}

/// A program by its steps.
#[derive(Clone, Copy)]
struct Program {
    name: &'static str,
    /// What it makes of the limits before anything else.
    reads: fn(Given) -> Given,
    /// Whether one of its checks but the last refuses.
    refuses: fn(Refusal, &Given) -> bool,
    /// The full calls.
    full: fn(&Given) -> i128,
    /// U, from the full calls.
    most: fn(&Given, i128) -> i128,
    /// Rows, from U and the columns; 0 if these are passed over.
    rows: fn(i128, i128) -> i128,
    /// How many column counts are tried.
    tried: fn(i128) -> i128,
    /// Whether rows and columns are better than the best so far.
    better: fn([i128; 2], [i128; 2]) -> bool,
    /// T, from the full calls, the cells and U.
    time: fn(&Given, [i128; 3]) -> i128,
    /// The four values, from T, R, C and U.
    told: fn([i128; 4]) -> [i128; 4],
}

const ALL_CELLS: i128 = 16_384 * 256;

/// Rows within their limits, or 0.
fn allowed(rows: i128, [least, most]: [i128; 2]) -> i128 {
    if rows < least {
        0
    } else {
        rows.min(most)
    }
}

const RIGHT: Program = Program {
    name: "the rules as they stand",
    reads: |given| given,
    refuses: condition,
    full: |given| given.input_bytes() / 64 + 1 + given.pieces(),
    most: |given, full| {
        let [for_rounds, for_words] = given.cells(full);
        for_rounds.min(for_words).min(ALL_CELLS)
    },
    rows: |most, c| allowed(most / c, [3, 16_384]),
    tried: |tries| tries.min(256),
    better: |[r, c], [best_r, best_c]| r * c > best_r * best_c,
    time: |given, [full, cells, _]| given.time(full, cells).min(255),
    told: |[t, r, c, most]| [t, r, c, most - r * c],
};

impl Program {
    /// The four values; none if every column count is passed over.
    fn values(&self, given: &Given) -> Option<[i128; 4]> {
        let full = (self.full)(given);
        let most = (self.most)(given, full);
        let mut best = [0, 0];
        for c in 1..=(self.tried)(given.tries) {
            let shape = [(self.rows)(most, c), c];
            if shape[0] > 0 && (self.better)(shape, best) {
                best = shape;
            }
        }
        let [r, c] = best;
        let t = (r > 0).then(|| (self.time)(given, [full, r * c, most]))?;
        Some((self.told)([t, r, c, most]))
    }

    fn is_refused(&self, check: Refusal, given: &Given) -> bool {
        // Where another check would have come first, ρ or the column counts may be none.
        let asked = Given {
            tries: given.tries.max(1),
            ..*given
        };
        match check {
            Refusal::NothingFits => given.rho > 0 && self.values(&asked).is_none(),
            other => (self.refuses)(other, given),
        }
    }

    /// The answer with the checks in this order.
    fn answer(&self, limits: &Limits, order: &[Refusal]) -> Answer {
        let given = (self.reads)(Given::new(limits));
        let mut checks = order.iter();
        if let Some(check) = checks.find(|check| self.is_refused(**check, &given)) {
            return Answer::Refused(*check);
        }
        let values = self.values(&given).expect("the last check has passed");
        // A value below zero is none that a program can tell, and as wrong as the greatest.
        let told = values.map(|value| u64::try_from(value).unwrap_or(u64::MAX));
        let [t, r, c, shortfall] = told;
        Answer::Chosen(Choice { t, r, c, shortfall })
    }
}

/// What a program makes of the limits in a wrong way.
type Reads = fn(Given) -> Given;

const WRONG_READS: [(&str, Reads); 14] = [
    ("a word more", |given| Given {
        words: given.words + 1,
        ..given
    }),
    ("a word fewer", |given| Given {
        words: given.words - 1,
        ..given
    }),
    ("a round more", |given| Given {
        budget: given.budget + 1,
        ..given
    }),
    ("a round fewer", |given| Given {
        budget: given.budget - 1,
        ..given
    }),
    ("words cut to 16 bits", |given| Given {
        words: given.words % (1 << 16),
        ..given
    }),
    ("words cut to 32 bits", |given| Given {
        words: given.words % (1 << 32),
        ..given
    }),
    ("words with a sign", |given| Given {
        words: given.words % (1 << 63),
        ..given
    }),
    ("a budget cut to 16 bits", |given| Given {
        budget: given.budget % (1 << 16),
        ..given
    }),
    ("a budget cut to 32 bits", |given| Given {
        budget: given.budget % (1 << 32),
        ..given
    }),
    ("a budget with a sign", |given| Given {
        budget: given.budget % (1 << 63),
        ..given
    }),
    ("column counts cut to 8 bits", |given| Given {
        tries: given.tries % (1 << 8),
        ..given
    }),
    ("column counts cut to 16 bits", |given| Given {
        tries: given.tries % (1 << 16),
        ..given
    }),
    ("column counts cut to 32 bits", |given| Given {
        tries: given.tries % (1 << 32),
        ..given
    }),
    ("no column count taken as one", |given| Given {
        tries: given.tries.max(1),
        ..given
    }),
];

/// A check that is wrong for one value: it refuses the value, or does not.
type Refuses = fn(Refusal, &Given) -> bool;

const WRONG_CHECKS: [(&str, Refuses); 16] = [
    ("a key of 1,024 bytes refused", |check, given| {
        condition(check, given) || (check, given.key_len) == (Refusal::KeyLength, 1024)
    }),
    ("a key of 1,025 bytes taken", |check, given| {
        condition(check, given) && (check, given.key_len) != (Refusal::KeyLength, 1025)
    }),
    ("no key taken", |check, given| {
        condition(check, given) && (check, given.key_len) != (Refusal::KeyLength, 0)
    }),
    ("a password of 1,024 bytes refused", |check, given| {
        condition(check, given) || (check, given.password_len) == (Refusal::PasswordLength, 1024)
    }),
    ("a password of 1,025 bytes taken", |check, given| {
        condition(check, given) && (check, given.password_len) != (Refusal::PasswordLength, 1025)
    }),
    ("a salt of 8 bytes refused", |check, given| {
        condition(check, given) || (check, given.salt_len) == (Refusal::SaltTooShort, 8)
    }),
    ("a salt of 7 bytes taken", |check, given| {
        condition(check, given) && (check, given.salt_len) != (Refusal::SaltTooShort, 7)
    }),
    ("a salt of 64 bytes refused", |check, given| {
        condition(check, given) || (check, given.salt_len) == (Refusal::SaltTooLong, 64)
    }),
    ("a salt of 65 bytes taken", |check, given| {
        condition(check, given) && (check, given.salt_len) != (Refusal::SaltTooLong, 65)
    }),
    ("a long salt answered as a short one", |check, given| {
        condition(check, given) || (check == Refusal::SaltTooShort && given.salt_len > 64)
    }),
    ("1 round refused", |check, given| {
        condition(check, given) || (check, given.rho) == (Refusal::Rounds, 1)
    }),
    ("12 rounds refused", |check, given| {
        condition(check, given) || (check, given.rho) == (Refusal::Rounds, 12)
    }),
    ("13 rounds taken", |check, given| {
        condition(check, given) && (check, given.rho) != (Refusal::Rounds, 13)
    }),
    ("one column count refused", |check, given| {
        condition(check, given) || (check, given.tries) == (Refusal::Tries, 1)
    }),
    ("256 column counts refused", |check, given| {
        condition(check, given) || (check, given.tries) == (Refusal::Tries, 256)
    }),
    ("more than 256 column counts refused", |check, given| {
        condition(check, given) || (check == Refusal::Tries && given.tries > 256)
    }),
];

/// The full calls.
type Full = fn(&Given) -> i128;

const WRONG_FULL_CALLS: [(&str, Full); 5] = [
    ("no block of padding alone", |given| {
        (given.input_bytes() + 63) / 64 + given.pieces()
    }),
    ("an input without its six numbers", |given| {
        (given.input_bytes() - 24) / 64 + 1 + given.pieces()
    }),
    ("a piece more", |given| {
        given.input_bytes() / 64 + 1 + given.key_len / 96 + 1
    }),
    ("whole pieces alone", |given| {
        given.input_bytes() / 64 + 1 + given.key_len / 96
    }),
    ("the key left out", |given| given.input_bytes() / 64 + 1),
];

/// U.
type Most = fn(&Given, i128) -> i128;

const WRONG_BOUNDS: [(&str, Most); 12] = [
    ("words alone", |given, full| {
        given.cells(full)[1].min(ALL_CELLS)
    }),
    ("rounds alone", |given, full| {
        given.cells(full)[0].min(ALL_CELLS)
    }),
    ("any number of cells", |given, full| {
        let [for_rounds, for_words] = given.cells(full);
        for_rounds.min(for_words)
    }),
    (
        "one cell fewer than the largest matrix has",
        |given, full| {
            let [for_rounds, for_words] = given.cells(full);
            for_rounds.min(for_words).min(ALL_CELLS - 1)
        },
    ),
    ("full calls not paid for", |given, _| (RIGHT.most)(given, 0)),
    ("a full call as one round", |given, full| {
        let budget = given.budget + 11 * full;
        (RIGHT.most)(&Given { budget, ..*given }, full)
    }),
    ("one reduced call a cell", |given, full| {
        let left = (given.budget - 12 * full).max(0);
        (left / given.rho).min(given.words / 12).min(ALL_CELLS)
    }),
    ("two rounds a cell", |given, full| {
        (RIGHT.most)(&Given { rho: 1, ..*given }, full)
    }),
    ("rounds rounded up", |given, full| {
        let budget = given.budget + 2 * given.rho - 1;
        (RIGHT.most)(&Given { budget, ..*given }, full)
    }),
    ("words rounded up", |given, full| {
        let words = given.words + 11;
        (RIGHT.most)(&Given { words, ..*given }, full)
    }),
    ("a budget that wraps around", |given, full| {
        let budget = match given.budget - 12 * full {
            left @ ..=-1 => left + (1 << 64),
            left => left,
        };
        (RIGHT.most)(&Given { budget, ..*given }, 0)
    }),
    ("cells of eight words", |given, full| {
        let words = given.words / 8 * 12;
        (RIGHT.most)(&Given { words, ..*given }, full)
    }),
];

/// Rows, from U and the columns.
type Rows = fn(i128, i128) -> i128;

const WRONG_ROWS: [(&str, Rows); 7] = [
    ("two rows", |most, c| allowed(most / c, [2, 16_384])),
    ("four rows at least", |most, c| {
        allowed(most / c, [4, 16_384])
    }),
    ("16,383 rows at most", |most, c| {
        allowed(most / c, [3, 16_383])
    }),
    ("16,385 rows", |most, c| allowed(most / c, [3, 16_385])),
    ("any number of rows", |most, c| {
        allowed(most / c, [3, ALL_CELLS])
    }),
    (
        "column counts with too many rows passed over",
        |most, c| match allowed(most / c, [3, ALL_CELLS]) {
            16_385.. => 0,
            rows => rows,
        },
    ),
    ("three rows where they are too many", |most, c| match most {
        ..=2 => 0,
        _ => (most / c).clamp(3, 16_384),
    }),
];

/// How many column counts are tried.
type Tried = fn(i128) -> i128;

const WRONG_TRIES: [(&str, Tried); 6] = [
    ("every column count", |_| 256),
    ("one column", |_| 1),
    ("a column count more", |tries| (tries + 1).min(256)),
    ("a column count fewer", |tries| (tries - 1).clamp(1, 256)),
    ("255 column counts at most", |tries| tries.min(255)),
    ("257 columns", |tries| tries.min(257)),
];

/// Whether rows and columns are better than the best so far.
type Better = fn([i128; 2], [i128; 2]) -> bool;

const WRONG_ORDERS: [(&str, Better); 5] = [
    ("the most columns of several", |[r, c], [best_r, best_c]| {
        r * c >= best_r * best_c
    }),
    ("the most rows", |[r, _], [best_r, _]| r > best_r),
    ("the fewest columns", |_, [best_r, _]| best_r == 0),
    ("the most columns", |_, _| true),
    ("cells without the last row", |[r, c], [best_r, best_c]| {
        (r - 1) * c > (best_r - 1) * best_c
    }),
];

/// T, from the full calls, the cells and U.
type Time = fn(&Given, [i128; 3]) -> i128;

const WRONG_TIMES: [(&str, Time); 10] = [
    ("T of U", |given, [full, _, most]| {
        given.time(full, most).min(255)
    }),
    ("T = 1", |_, _| 1),
    ("T = 254 at most", |given, [full, cells, _]| {
        given.time(full, cells).min(254)
    }),
    ("T = 256 at most", |given, [full, cells, _]| {
        given.time(full, cells).min(256)
    }),
    ("any T", |given, [full, cells, _]| given.time(full, cells)),
    ("a T more", |given, [full, cells, _]| {
        (given.time(full, cells) + 1).min(255)
    }),
    ("a T less", |given, [full, cells, _]| {
        (given.time(full, cells) - 1).clamp(1, 255)
    }),
    ("T with rounds to spare", |given, [full, cells, _]| {
        let budget = given.budget - 1;
        Given { budget, ..*given }.time(full, cells).clamp(1, 255)
    }),
    ("T without full calls", |given, [_, cells, _]| {
        given.time(0, cells).min(255)
    }),
    ("T of one round", |given, [full, cells, _]| {
        Given { rho: 1, ..*given }.time(full, cells).min(255)
    }),
];

/// The four values, from T, R, C and U.
type Told = fn([i128; 4]) -> [i128; 4];

const WRONG_VALUES: [(&str, Told); 5] = [
    ("no shortfall", |[t, r, c, _]| [t, r, c, 0]),
    ("U for the shortfall", |values| values),
    ("the shortfall to the largest matrix", |[t, r, c, _]| {
        [t, r, c, ALL_CELLS - r * c]
    }),
    ("a shortfall in words", |[t, r, c, most]| {
        [t, r, c, 12 * (most - r * c)]
    }),
    ("rows and columns exchanged", |[t, r, c, most]| {
        [t, c, r, most - r * c]
    }),
];

/// A program for each of some steps, with all others right.
fn each<S, const N: usize>(steps: [(&'static str, S); N], with: fn(S) -> Program) -> Vec<Program> {
    let program = |(name, step)| Program { name, ..with(step) };
    steps.map(program).to_vec()
}

/// Every wrong program.
fn wrong_programs() -> Vec<Program> {
    [
        each(WRONG_READS, |reads| Program { reads, ..RIGHT }),
        each(WRONG_CHECKS, |refuses| Program { refuses, ..RIGHT }),
        each(WRONG_FULL_CALLS, |full| Program { full, ..RIGHT }),
        each(WRONG_BOUNDS, |most| Program { most, ..RIGHT }),
        each(WRONG_ROWS, |rows| Program { rows, ..RIGHT }),
        each(WRONG_TRIES, |tried| Program { tried, ..RIGHT }),
        each(WRONG_ORDERS, |better| Program { better, ..RIGHT }),
        each(WRONG_TIMES, |time| Program { time, ..RIGHT }),
        each(WRONG_VALUES, |told| Program { told, ..RIGHT }),
    ]
    .concat()
}

/// The limits and the answers of the cases.
fn cases() -> Vec<(Limits, Answer)> {
    let own = |(_, case): (usize, Case)| match case.question {
        Question::Choose { limits } => Some((limits, case.answer)),
        _ => None,
    };
    common::cases().into_iter().filter_map(own).collect()
}

/// How many cases notice a program that makes its checks in this order.
fn noticed(program: &Program, order: &[Refusal], cases: &[(Limits, Answer)]) -> usize {
    let differs = |(limits, due): &&(Limits, Answer)| program.answer(limits, order) != *due;
    cases.iter().filter(differs).count()
}

#[test]
fn every_wrong_step_is_noticed() {
    let cases = cases();
    for program in wrong_programs() {
        let count = noticed(&program, CHOICE_CHECKS, &cases);
        assert!(count > 0, "{}", program.name);
    }
}

/// Shows that above nothing but the fault is noticed, and that the page's quotients are right.
#[test]
fn the_rules_as_they_stand_are_not_noticed() {
    for (limits, due) in cases() {
        let found = RIGHT.answer(&limits, CHOICE_CHECKS);
        assert_eq!(found, due, "{}, {limits:?}", RIGHT.name);
    }
}

/// A check is made before one that should come first, all others in their order.
#[test]
fn every_wrong_order_is_noticed() {
    let cases = cases();
    for (place, first) in CHOICE_CHECKS.iter().enumerate() {
        for (later_place, later) in CHOICE_CHECKS.iter().enumerate().skip(place + 1) {
            // No salt is too short and too long.
            if (*first, *later) == (Refusal::SaltTooShort, Refusal::SaltTooLong) {
                continue;
            }
            let mut order = CHOICE_CHECKS.to_vec();
            order.remove(later_place);
            order.insert(place, *later);
            let count = noticed(&RIGHT, &order, &cases);
            assert!(count > 0, "{later:?} before {first:?}");
        }
    }
}
