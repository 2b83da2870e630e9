//! Several lanes: a program held against the second one, in lent buffers between guards.

use crate::compare::{compare_used, mostly_small, same, stored_keys};
use crate::guarded::{byte, word, Guarded};
use lyra2_reference::vectors::random::Random;
use lyra2_reference::vectors::Subject;
use lyra2_reference::{Checked, Counts, LaneInputs, Parameters, Refusal};

/// What a comparison was about.
#[derive(Clone, Copy, Debug)]
pub struct ComparedLanes {
    /// The first six numbers of the input.
    pub sizes: Parameters,
    /// The number of lanes.
    pub p: u64,
    /// What both programs answered to the derivation.
    pub answer: Result<Counts, Refusal>,
}

/// The sizes of a call.
#[derive(Clone, Copy, Debug)]
struct Sizes {
    given: Parameters,
    p: u64,
    matrix_words: u64,
}

/// What a derivation reads, between guards.
struct Lent {
    password: Guarded<u8>,
    salt: Guarded<u8>,
    sizes: Sizes,
}

impl Lent {
    fn inputs(&self) -> LaneInputs<'_> {
        LaneInputs {
            password: self.password.lent(),
            salt: self.salt.lent(),
            t: self.sizes.given.t,
            r: self.sizes.given.r,
            c: self.sizes.given.c,
            p: self.sizes.p,
        }
    }
}

/// What the derivation has to leave: of an accepted one the key and zeros, of a refused one nothing.
struct End {
    answer: Result<Counts, Refusal>,
    key: Vec<u8>,
    used_matrix: Vec<u64>,
}

/// Draws a derivation with lanes and puts it to both programs, with the cost question and three checks about the same inputs.
pub fn compare_random(
    subject: &impl Subject,
    random: &mut Random,
) -> Result<ComparedLanes, String> {
    let sizes = draw_sizes(random);
    let lent = Lent {
        password: Guarded::random(random, sizes.given.password_len as usize, byte),
        salt: Guarded::random(random, sizes.given.salt_len as usize, byte),
        sizes,
    };
    let end = reference_end(&lent);
    compare_all(subject, &lent, &end, random).map_err(|what| format!("{sizes:?}: {what}"))?;
    Ok(ComparedLanes {
        sizes: sizes.given,
        p: sizes.p,
        answer: end.answer,
    })
}

fn compare_all(
    subject: &impl Subject,
    lent: &Lent,
    end: &End,
    random: &mut Random,
) -> Result<(), String> {
    compare_derive(subject, lent, end, random)?;
    compare_cost(subject, lent, end)?;
    for (stored, matches) in stored_keys(&end.key, random) {
        compare_check(subject, lent, end, &stored, matches, random)?;
    }
    lent.password.used("password", 0)?;
    lent.salt.used("salt", 0)?;
    Ok(())
}

/// Lengths from everywhere between their limits; T, rows of a lane and C mostly small, so that a run gets far.
fn draw_sizes(random: &mut Random) -> Sizes {
    let p = random.between(1, 8);
    let given = Parameters {
        key_len: random.between(1, 1024),
        password_len: random.between(0, 1024),
        salt_len: random.between(8, 64),
        t: mostly_small(random, 1, [2, 9, 255]),
        r: 2 * p * mostly_small(random, 2, [5, 20, 100]),
        c: mostly_small(random, 1, [3, 10, 256]),
    };
    let mut sizes = Sizes {
        given,
        p,
        matrix_words: given.matrix_words() + random.between(0, 40),
    };
    if random.once_in(8) {
        for _ in 0..random.between(1, 3) {
            spoil(random, &mut sizes);
        }
    }
    sizes
}

/// Puts one size outside its limits, takes rows or lanes that may not go together, or makes the matrix shorter, which may leave it
/// long enough.
fn spoil(random: &mut Random, sizes: &mut Sizes) {
    let low = random.once_in(2);
    let pick = |below: u64, above: u64| if low { below } else { above };
    let given = &mut sizes.given;
    match random.between(1, 9) {
        1 => given.key_len = pick(0, random.between(1025, 2000)),
        2 => given.password_len = random.between(1025, 2000),
        3 => given.salt_len = pick(random.between(0, 7), random.between(65, 200)),
        4 => given.t = pick(0, random.between(256, u64::MAX)),
        5 => given.r = pick(random.between(0, 2), random.between(16_385, u64::MAX)),
        6 => given.c = pick(0, random.between(257, u64::MAX)),
        7 if low => sizes.p = 9 * random.between(0, 1),
        // A number that would be all right if cut to some bits.
        7 => sizes.p = sizes.p.saturating_add(1 << random.between(4, 63)),
        8 => {
            given.r = pick(
                sizes.p.saturating_mul(random.between(1, 7)),
                random.between(3, 40),
            )
        }
        // A word too few, which the random lengths hardly ever are.
        _ if low => {
            let one_short = given.matrix_words().saturating_sub(1);
            sizes.matrix_words = sizes.matrix_words.min(one_short);
        }
        _ => {
            let fewer = random.between(1, 80);
            sizes.matrix_words = sizes.matrix_words.saturating_sub(fewer);
        }
    }
}

fn reference_end(lent: &Lent) -> End {
    let given = lent.sizes.given;
    let mut key = vec![0; given.key_len as usize];
    let mut used_matrix = vec![0; lent.sizes.matrix_words as usize];
    let answer = lyra2_reference::lanes_derive(&lent.inputs(), &mut key, &mut used_matrix);
    used_matrix.truncate(answer.map_or(0, |_| given.matrix_words() as usize));
    End {
        answer,
        key,
        used_matrix,
    }
}

fn compare_derive(
    subject: &impl Subject,
    lent: &Lent,
    end: &End,
    random: &mut Random,
) -> Result<(), String> {
    let mut key = Guarded::random(random, end.key.len(), byte);
    let mut matrix = Guarded::random(random, lent.sizes.matrix_words as usize, word);
    let answer = subject
        .lanes_derive(&lent.inputs(), key.lent_mut(), matrix.lent_mut())
        .ok_or("the program derives with no lanes")?;
    same("lanes_derive: answer", &end.answer, &answer)?;
    let due_key = if end.answer.is_ok() {
        &end.key
    } else {
        &[][..]
    };
    compare_used("lanes_derive: key", due_key, &key)?;
    compare_used("lanes_derive: matrix", &end.used_matrix, &matrix)
}

fn compare_cost(subject: &impl Subject, lent: &Lent, end: &End) -> Result<(), String> {
    let Sizes { given, p, .. } = &lent.sizes;
    let due = match end.answer {
        // The cost question has no matrix.
        Err(Refusal::MatrixWords) => lyra2_reference::lanes_cost(given, *p),
        answer => answer,
    };
    let found = subject
        .lanes_cost(given, *p)
        .ok_or("the program tells no costs of lanes")?;
    same("lanes_cost", &due, &found)
}

fn compare_check(
    subject: &impl Subject,
    lent: &Lent,
    end: &End,
    stored: &[u8],
    matches: bool,
    random: &mut Random,
) -> Result<(), String> {
    let stored = Guarded::holding(random, stored, byte);
    let mut matrix = Guarded::random(random, lent.sizes.matrix_words as usize, word);
    let answer = subject
        .lanes_check(&lent.inputs(), stored.lent(), matrix.lent_mut())
        .ok_or("the program checks with no lanes")?;
    let due = end.answer.map(|counts| Checked { matches, counts });
    same("lanes_check: answer", &due, &answer)?;
    stored.used("lanes_check: stored key", 0)?;
    compare_used("lanes_check: matrix", &end.used_matrix, &matrix)
}
