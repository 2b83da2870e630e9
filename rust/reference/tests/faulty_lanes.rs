//! Faulty programs with lanes, made on purpose: the cases of request #111 have to notice every fault, those of each operation that
//! has it by themselves. Wrong derivations stand in `misread_lanes`; here are wrong limits, orders, counts, buffers and answers.

mod common;

use lyra2_reference::refusal::{Refusal, LANES_CHECKS};
use lyra2_reference::vectors::{run, write, Case, Reference, Subject};
use lyra2_reference::{Checked, Counts, Inputs, LaneInputs, Parameters, Settings};

/// What the checks look at; the cost question is lent as many words as are used.
#[derive(Clone, Copy)]
struct Sizes {
    given: Parameters,
    p: u64,
    matrix_words: u64,
}

/// Whether the condition of a check holds.
fn condition(check: Refusal, sizes: &Sizes) -> bool {
    let Sizes { given, p, .. } = sizes;
    match check {
        Refusal::KeyLength => !(1..=1024).contains(&given.key_len),
        Refusal::PasswordLength => given.password_len > 1024,
        Refusal::SaltTooShort => given.salt_len < 8,
        Refusal::SaltTooLong => given.salt_len > 64,
        Refusal::TimeCost => !(1..=255).contains(&given.t),
        Refusal::Rows => !(3..=16_384).contains(&given.r),
        Refusal::Columns => !(1..=256).contains(&given.c),
        Refusal::Lanes => {
            !(1..=8).contains(p) || given.r % 2 == 1 || given.r / 2 % p != 0 || given.r / p < 4
        }
        Refusal::MatrixWords => sizes.matrix_words < given.matrix_words(),
        _ => false,
    }
}

/// What is done wrong with an answer or a lent buffer.
#[derive(Clone, Copy, Debug, PartialEq, Eq)]
enum Spoiled {
    Nothing,
    FirstKeyByte,
    LastKeyByte,
    KeyOfSingleSponge,
    FirstWordLeft,
    LastWordLeft,
    RowsOfOtherLanesLeft,
    WordPastMatrixWiped,
    KeyOnRefusal,
    MatrixOnRefusal,
    FullOfOneLane,
    ReducedOfOneLane,
    RoundsOfFullCalls,
    EverythingRefused,
    CheckSaysYes,
    CheckSaysNo,
    CheckForgetsLastByte,
    CheckForgetsFirstByte,
    CostOfSixNumbers,
}

use Spoiled::*;

/// A program by its checks and by what it spoils; the rest is the reference program.
struct Program {
    refuses: fn(Refusal, &Sizes) -> bool,
    order: Vec<Refusal>,
    spoiled: Spoiled,
}

fn right() -> Program {
    Program {
        refuses: condition,
        order: LANES_CHECKS.to_vec(),
        spoiled: Nothing,
    }
}

impl Program {
    fn refusal(&self, sizes: &Sizes) -> Option<Refusal> {
        if self.spoiled == EverythingRefused {
            return Some(Refusal::Lanes);
        }
        let mut order = self.order.iter().copied();
        order.find(|check| (self.refuses)(*check, sizes))
    }

    /// The counts as this program tells them. What it should have refused spends nothing.
    fn told(&self, counts: Result<Counts, Refusal>, p: u64) -> Counts {
        let Ok(mut counts) = counts else {
            return Counts::default();
        };
        match self.spoiled {
            FullOfOneLane => counts.full /= p,
            ReducedOfOneLane => counts.reduced /= p,
            RoundsOfFullCalls => counts.rounds = 12 * counts.full,
            _ => (),
        }
        counts
    }

    /// Spoils the matrix of a call that was made.
    fn spoil_matrix(&self, inputs: &LaneInputs, matrix: &mut [u64]) {
        let used = (12 * inputs.r * inputs.c) as usize;
        let one_lane = used / inputs.p as usize;
        match self.spoiled {
            FirstWordLeft => matrix[0] = 1,
            LastWordLeft => matrix[used - 1] = 1,
            RowsOfOtherLanesLeft => matrix[one_lane..used].fill(1),
            WordPastMatrixWiped => matrix[used..].iter_mut().take(1).for_each(|word| *word = 0),
            _ => (),
        }
    }

    fn spoil_key(&self, inputs: &LaneInputs, key: &mut [u8]) {
        let last = key.len() - 1;
        match self.spoiled {
            FirstKeyByte => key[0] ^= 0x80,
            LastKeyByte => key[last] ^= 0x01,
            KeyOfSingleSponge if inputs.p == 1 => single_sponge(inputs, key),
            _ => (),
        }
    }
}

/// The key of the single sponge for the same inputs.
fn single_sponge(inputs: &LaneInputs, key: &mut [u8]) {
    let single = Inputs {
        password: inputs.password,
        salt: inputs.salt,
        t: inputs.t,
        r: inputs.r,
        c: inputs.c,
        settings: Settings::USUAL,
    };
    let mut matrix = vec![0; (12 * inputs.r * inputs.c) as usize];
    lyra2_reference::derive(&single, key, &mut matrix).expect("accepted with lanes");
}

impl Subject for Program {
    fn lanes_derive(
        &self,
        inputs: &LaneInputs,
        key: &mut [u8],
        matrix: &mut [u64],
    ) -> Option<Result<Counts, Refusal>> {
        let sizes = Sizes {
            given: inputs.parameters(key.len()),
            p: inputs.p,
            matrix_words: matrix.len() as u64,
        };
        if let Some(refusal) = self.refusal(&sizes) {
            match self.spoiled {
                KeyOnRefusal => key.fill(0),
                MatrixOnRefusal => matrix.fill(0),
                _ => (),
            }
            return Some(Err(refusal));
        }
        let counts = lyra2_reference::lanes_derive(inputs, key, matrix);
        if counts.is_ok() {
            self.spoil_key(inputs, key);
            self.spoil_matrix(inputs, matrix);
        }
        Some(Ok(self.told(counts, inputs.p)))
    }

    fn lanes_check(
        &self,
        inputs: &LaneInputs,
        stored: &[u8],
        matrix: &mut [u64],
    ) -> Option<Result<Checked, Refusal>> {
        let mut key = stored.to_vec();
        let counts = match self.lanes_derive(inputs, &mut key, matrix)? {
            Ok(counts) => counts,
            Err(refusal) => return Some(Err(refusal)),
        };
        let matches = match self.spoiled {
            CheckSaysYes => true,
            CheckSaysNo => false,
            CheckForgetsLastByte => key[..key.len() - 1] == stored[..stored.len() - 1],
            CheckForgetsFirstByte => key[1..] == stored[1..],
            _ => key == stored,
        };
        Some(Ok(Checked { matches, counts }))
    }

    fn lanes_cost(&self, given: &Parameters, p: u64) -> Option<Result<Counts, Refusal>> {
        let sizes = Sizes {
            given: *given,
            p,
            matrix_words: given.matrix_words(),
        };
        if let Some(refusal) = self.refusal(&sizes) {
            return Some(Err(refusal));
        }
        let mut counts = lyra2_reference::lanes_cost(given, p);
        if self.spoiled == CostOfSixNumbers {
            counts = lyra2_reference::cost(given, 1).map(|single| {
                let full = p * single.full;
                let rounds = 12 * full + single.reduced;
                Counts {
                    full,
                    rounds,
                    ..single
                }
            });
        }
        Some(Ok(self.told(counts, p)))
    }

    fn derive(
        &self,
        inputs: &Inputs,
        key: &mut [u8],
        matrix: &mut [u64],
    ) -> Result<Counts, Refusal> {
        Reference.derive(inputs, key, matrix)
    }

    fn check(
        &self,
        inputs: &Inputs,
        stored: &[u8],
        matrix: &mut [u64],
    ) -> Result<Checked, Refusal> {
        Reference.check(inputs, stored, matrix)
    }

    fn cost(&self, given: &Parameters, rho: u64) -> Result<Counts, Refusal> {
        Reference.cost(given, rho)
    }

    fn walk(&self, r: u64, row0: u64) -> Result<u64, Refusal> {
        Reference.walk(r, row0)
    }
}

const OPERATIONS: [&str; 3] = ["lanes_derive", "lanes_check", "lanes_cost"];

fn cases() -> Vec<Case> {
    let cases = common::cases().into_iter().map(|(_, case)| case);
    cases
        .filter(|case| OPERATIONS.contains(&write::op(&case.question)))
        .collect()
}

/// The operations whose own cases notice that a program is faulty.
fn noticed_by(program: &Program, cases: &[Case]) -> Vec<&'static str> {
    let notices = |case: &Case| {
        let found = run::ask(program, &case.question);
        found
            .and_then(|found| run::compare(&case.answer, &found))
            .is_err()
    };
    let mut operations = OPERATIONS.to_vec();
    operations.retain(|op| {
        let own = cases.iter().filter(|case| write::op(&case.question) == *op);
        own.into_iter().any(notices)
    });
    operations
}

#[test]
fn the_right_program_is_not_noticed() {
    assert_eq!(noticed_by(&right(), &cases()), [""; 0]);
}

/// A check that is wrong for some values: it refuses them, or does not.
type Refuses = fn(Refusal, &Sizes) -> bool;

const WRONG_CHECKS: [(&str, Refuses); 26] = [
    ("no key taken", |check, sizes| {
        condition(check, sizes) && !(check == Refusal::KeyLength && sizes.given.key_len == 0)
    }),
    ("a key of 1,025 bytes taken", |check, sizes| {
        condition(check, sizes) && !(check == Refusal::KeyLength && sizes.given.key_len == 1025)
    }),
    ("a password of 1,025 bytes taken", |check, sizes| {
        condition(check, sizes)
            && !(check == Refusal::PasswordLength && sizes.given.password_len == 1025)
    }),
    ("a salt of 7 bytes taken", |check, sizes| {
        condition(check, sizes) && !(check == Refusal::SaltTooShort && sizes.given.salt_len == 7)
    }),
    ("a salt of 65 bytes taken", |check, sizes| {
        condition(check, sizes) && !(check == Refusal::SaltTooLong && sizes.given.salt_len == 65)
    }),
    ("T = 0 taken, as with the single sponge", |check, sizes| {
        condition(check, sizes) && !(check == Refusal::TimeCost && sizes.given.t == 0)
    }),
    ("T = 256 taken", |check, sizes| {
        condition(check, sizes) && !(check == Refusal::TimeCost && sizes.given.t == 256)
    }),
    ("T = 255 refused", |check, sizes| {
        condition(check, sizes) || check == Refusal::TimeCost && sizes.given.t == 255
    }),
    ("R under 4 refused with 5", |check, sizes| {
        condition(check, sizes) || check == Refusal::Rows && sizes.given.r < 4
    }),
    ("R = 16,384 refused", |check, sizes| {
        condition(check, sizes) || check == Refusal::Rows && sizes.given.r == 16_384
    }),
    ("R above 16,384 taken", |check, sizes| {
        condition(check, sizes) && !(check == Refusal::Rows && sizes.given.r == 16_388)
    }),
    ("C = 256 refused", |check, sizes| {
        condition(check, sizes) || check == Refusal::Columns && sizes.given.c == 256
    }),
    ("C = 257 taken", |check, sizes| {
        condition(check, sizes) && !(check == Refusal::Columns && sizes.given.c == 257)
    }),
    ("no lanes taken", |check, sizes| {
        condition(check, sizes) && !(check == Refusal::Lanes && sizes.p == 0)
    }),
    ("nine lanes taken", |check, sizes| match check {
        Refusal::Lanes if sizes.p == 9 => sizes.given.r % 18 != 0 || sizes.given.r < 36,
        _ => condition(check, sizes),
    }),
    ("one lane refused", |check, sizes| {
        condition(check, sizes) || check == Refusal::Lanes && sizes.p == 1
    }),
    ("eight lanes refused", |check, sizes| {
        condition(check, sizes) || check == Refusal::Lanes && sizes.p == 8
    }),
    ("lanes cut to 8 bits", |check, sizes| {
        with_lanes(check, sizes, sizes.p % (1 << 8))
    }),
    ("lanes cut to 32 bits", |check, sizes| {
        with_lanes(check, sizes, sizes.p % (1 << 32))
    }),
    ("lanes with a sign", |check, sizes| {
        with_lanes(check, sizes, sizes.p % (1 << 63))
    }),
    ("odd rows taken", |check, sizes| match check {
        Refusal::Lanes if (1..=8).contains(&sizes.p) => {
            sizes.given.r / 2 % sizes.p != 0 || sizes.given.r / sizes.p < 4
        }
        _ => condition(check, sizes),
    }),
    (
        "rows taken that p divides but not their half",
        |check, sizes| match check {
            Refusal::Lanes if (1..=8).contains(&sizes.p) => {
                sizes.given.r % 2 == 1
                    || sizes.given.r % sizes.p != 0
                    || sizes.given.r / sizes.p < 4
            }
            _ => condition(check, sizes),
        },
    ),
    ("two rows a lane taken", |check, sizes| match check {
        Refusal::Lanes => {
            let are_two = (1..=8).contains(&sizes.p) && sizes.given.r == 2 * sizes.p;
            condition(check, sizes) && !are_two
        }
        _ => condition(check, sizes),
    }),
    ("three rows a lane taken", |check, sizes| match check {
        Refusal::Lanes => {
            let are_three = (1..=8).contains(&sizes.p) && sizes.given.r == 3 * sizes.p;
            condition(check, sizes) && !are_three
        }
        _ => condition(check, sizes),
    }),
    ("four rows a lane refused", |check, sizes| {
        condition(check, sizes) || check == Refusal::Lanes && sizes.given.r / sizes.p < 6
    }),
    ("16 lanes taken", |check, sizes| match check {
        Refusal::Lanes if sizes.p == 16 => sizes.given.r % 32 != 0 || sizes.given.r < 64,
        _ => condition(check, sizes),
    }),
];

/// The checks with another number of lanes.
fn with_lanes(check: Refusal, sizes: &Sizes, p: u64) -> bool {
    condition(check, &Sizes { p, ..*sizes })
}

#[test]
fn wrong_limits_are_noticed_in_each_operation() {
    let cases = cases();
    for (name, refuses) in WRONG_CHECKS {
        let program = Program { refuses, ..right() };
        assert_eq!(noticed_by(&program, &cases), OPERATIONS, "{name}");
    }
}

/// The matrix is no matter of the cost question.
#[test]
fn matrices_that_are_too_short_are_noticed() {
    let one_word: Refuses = |check, sizes| {
        let is_one_short = sizes.given.matrix_words().checked_sub(1) == Some(sizes.matrix_words);
        condition(check, sizes) && !(check == Refusal::MatrixWords && is_one_short)
    };
    let one_more: Refuses = |check, sizes| {
        let fits_exactly = sizes.matrix_words == sizes.given.matrix_words();
        condition(check, sizes) || check == Refusal::MatrixWords && fits_exactly
    };
    for refuses in [one_word, one_more] {
        let program = Program { refuses, ..right() };
        let noticed = noticed_by(&program, &cases());
        assert!(noticed.starts_with(&["lanes_derive", "lanes_check"]));
    }
    let without_last_lane: Refuses = |check, sizes| {
        let lanes = sizes.p.clamp(2, 8);
        let fewer = sizes.given.matrix_words() / lanes * (lanes - 1);
        let is_enough = sizes.matrix_words >= fewer;
        condition(check, sizes) && !(check == Refusal::MatrixWords && is_enough)
    };
    let program = Program {
        refuses: without_last_lane,
        ..right()
    };
    assert!(noticed_by(&program, &cases()).contains(&"lanes_derive"));
}

/// Each check left out, and each made after the next one. No salt is too short and too long, so that these two can be exchanged.
#[test]
fn checks_left_out_or_exchanged_are_noticed() {
    let cases = cases();
    for (place, &check) in LANES_CHECKS.iter().enumerate() {
        let due = if check == Refusal::MatrixWords { 2 } else { 3 };
        let mut left_out = right();
        left_out.order.remove(place);
        let noticed = noticed_by(&left_out, &cases);
        assert_eq!(noticed, OPERATIONS[..due], "{check:?} left out");

        let Some(next) = LANES_CHECKS.get(place + 1) else {
            continue;
        };
        if check == Refusal::SaltTooShort {
            continue;
        }
        let mut exchanged = right();
        exchanged.order.swap(place, place + 1);
        let due = if *next == Refusal::MatrixWords { 2 } else { 3 };
        let noticed = noticed_by(&exchanged, &cases);
        assert_eq!(noticed, OPERATIONS[..due], "{check:?} after {next:?}");
    }
}

/// Each check answered with the number of another.
#[test]
fn wrong_numbers_are_noticed() {
    let cases = cases();
    for (number, instead) in [
        (Refusal::Lanes, Refusal::Rows),
        (Refusal::TimeCost, Refusal::Lanes),
        (Refusal::SaltTooLong, Refusal::SaltTooShort),
    ] {
        let mut program = right();
        program.order.retain(|check| *check != number);
        let refuses: Refuses = match number {
            Refusal::Lanes => |check, sizes| match check {
                Refusal::Rows => condition(check, sizes) || condition(Refusal::Lanes, sizes),
                _ => condition(check, sizes),
            },
            Refusal::TimeCost => |check, sizes| match check {
                Refusal::Lanes => condition(check, sizes) || condition(Refusal::TimeCost, sizes),
                _ => condition(check, sizes),
            },
            _ => |check, sizes| match check {
                Refusal::SaltTooShort => {
                    condition(check, sizes) || condition(Refusal::SaltTooLong, sizes)
                }
                _ => condition(check, sizes),
            },
        };
        program.refuses = refuses;
        let noticed = noticed_by(&program, &cases);
        assert_eq!(noticed, OPERATIONS, "{number:?} answered as {instead:?}");
    }
}

#[test]
fn spoiled_answers_and_buffers_are_noticed() {
    let cases = cases();
    for (spoiled, due) in [
        (FirstKeyByte, &["lanes_derive", "lanes_check"][..]),
        (LastKeyByte, &["lanes_derive", "lanes_check"]),
        (KeyOfSingleSponge, &["lanes_derive", "lanes_check"]),
        (FirstWordLeft, &["lanes_derive", "lanes_check"]),
        (LastWordLeft, &["lanes_derive", "lanes_check"]),
        (RowsOfOtherLanesLeft, &["lanes_derive", "lanes_check"]),
        (WordPastMatrixWiped, &["lanes_derive", "lanes_check"]),
        // A check has no key buffer.
        (KeyOnRefusal, &["lanes_derive"]),
        (MatrixOnRefusal, &["lanes_derive", "lanes_check"]),
        (FullOfOneLane, &OPERATIONS),
        (ReducedOfOneLane, &OPERATIONS),
        (RoundsOfFullCalls, &OPERATIONS),
        (EverythingRefused, &OPERATIONS),
        (CheckSaysYes, &["lanes_check"]),
        (CheckSaysNo, &["lanes_check"]),
        (CheckForgetsLastByte, &["lanes_check"]),
        (CheckForgetsFirstByte, &["lanes_check"]),
        (CostOfSixNumbers, &["lanes_cost"]),
    ] {
        let program = Program { spoiled, ..right() };
        assert_eq!(noticed_by(&program, &cases), due, "{spoiled:?}");
    }
}
