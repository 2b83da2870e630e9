//! The largest matrix, R = 16,384 and C = 256, about 400 MB: the plain derivation and the check against the second
//! program, with one sponge and with eight lanes, and every used word wiped. The vectors have the recorded derivation of this
//! size, with a checksum of its end matrix.

use derivation_link::Proved;
use lyra2_reference::vectors::{Reference, Subject};
use lyra2_reference::{Checked, Counts, Inputs, LaneInputs, Refusal, Settings};

const WORDS: usize = 12 * 16_384 * 256;
/// Words lent past the used ones.
const SPARE: usize = 3;
/// What the lent words hold before.
const BEFORE: u64 = 0xa5a5_a5a5_a5a5_a5a5;

const INPUTS: Inputs = Inputs {
    password: b"a password for the largest matrix",
    salt: b"and its salt",
    t: 1,
    r: 16_384,
    c: 256,
    settings: Settings::USUAL,
};

const LANES: LaneInputs = LaneInputs {
    password: INPUTS.password,
    salt: INPUTS.salt,
    t: INPUTS.t,
    r: INPUTS.r,
    c: INPUTS.c,
    p: 8,
};

/// What is spent with so many full calls.
fn counts(full: u64) -> Counts {
    let reduced = 2 * 16_384 * 256;
    let rounds = 12 * full + reduced;
    Counts {
        full,
        reduced,
        rounds,
    }
}

/// The first place where a matrix is not what is due: zero in the used words, and the words past them kept.
fn differing(matrix: &[u64]) -> Option<usize> {
    let (used, spare) = matrix.split_at(WORDS);
    let left = used.iter().position(|&word| word != 0);
    let changed = spare.iter().position(|&word| word != BEFORE);
    left.or(changed.map(|place| WORDS + place))
}

/// Derives with the second program and with the library, then checks the key and another.
fn assert_agree(
    due_counts: Counts,
    second: impl Fn(&mut [u8], &mut [u64]) -> Result<Counts, Refusal>,
    derive: impl Fn(&mut [u8], &mut [u64]) -> Result<Counts, Refusal>,
    check: impl Fn(&[u8], &mut [u64]) -> Result<Checked, Refusal>,
) {
    let mut due_key = [0; 100];
    let mut matrix = vec![BEFORE; WORDS + SPARE];
    assert_eq!(second(&mut due_key, &mut matrix), Ok(due_counts));

    let mut key = [0xa5; 100];
    matrix.fill(BEFORE);
    assert_eq!(derive(&mut key, &mut matrix), Ok(due_counts));
    assert_eq!(key, due_key);
    assert_eq!(differing(&matrix), None);

    for (flipped, matches) in [(0, true), (0x80, false)] {
        matrix.fill(BEFORE);
        key[99] ^= flipped;
        let counts = due_counts;
        assert_eq!(check(&key, &mut matrix), Ok(Checked { matches, counts }));
        assert_eq!(differing(&matrix), None);
    }
}

#[test]
fn plain_derivation_and_check_of_the_largest_matrix() {
    assert_agree(
        counts(2 + 2),
        |key, matrix| Reference.derive(&INPUTS, key, matrix),
        |key, matrix| Proved.derive(&INPUTS, key, matrix),
        |stored, matrix| Proved.check(&INPUTS, stored, matrix),
    );
}

/// Eight lanes of 2,048 rows; each has an input of two blocks and a key of two pieces.
#[test]
fn derivation_and_check_of_the_largest_matrix_with_lanes() {
    assert_agree(
        counts(8 * (2 + 2)),
        |key, matrix| lyra2_reference::lanes_derive(&LANES, key, matrix),
        |key, matrix| Proved.lanes_derive(&LANES, key, matrix).expect("there"),
        |stored, matrix| Proved.lanes_check(&LANES, stored, matrix).expect("there"),
    );
}
