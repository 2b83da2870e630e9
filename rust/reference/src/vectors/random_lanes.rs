//! Random questions about lanes, of which about one in eight may be refused.

use super::case::{Bytes, LanesGiven, Question};
use super::lanes::key_of;
use super::random::Random;

/// A derivation, a check or a cost question with lanes.
pub fn question(random: &mut Random) -> Question {
    let mut given = given(random);
    let mut key_len = random.mostly(1, 200, 1024, 8);
    let stored = stored_key(random, &given, key_len);
    let is_spoiled = random.once_in(8);
    if is_spoiled {
        spoil(random, &mut given, &mut key_len);
    }
    match random.between(1, 4) {
        1 => Question::LanesCheck {
            given,
            // A key of another length is a wrong one.
            stored: if is_spoiled {
                Bytes::Zeros(key_len)
            } else {
                stored
            },
        },
        2 => Question::LanesCost {
            given: given.parameters(key_len),
            p: given.p,
        },
        _ => Question::LanesDerive { given, key_len },
    }
}

/// Accepted inputs, with a matrix that fits exactly or has words to spare.
fn given(random: &mut Random) -> LanesGiven {
    let password_len = random.mostly(0, 150, 1024, 8);
    let salt_len = random.between(8, 64);
    let p = random.between(1, 8);
    let mut given = LanesGiven {
        password: Bytes::Listed(random.bytes(password_len)),
        salt: Bytes::Listed(random.bytes(salt_len)),
        t: random.mostly(1, 3, 255, 100),
        r: 2 * p * random.mostly(2, 10, 80, 10),
        c: random.mostly(1, 6, 100, 30),
        p,
        matrix_words: 0,
    };
    given.matrix_words = given.parameters(1).matrix_words() + random.mostly(0, 0, 30, 4);
    given
}

/// The key, or in two of three times the key with one bit flipped.
fn stored_key(random: &mut Random, given: &LanesGiven, key_len: u64) -> Bytes {
    let mut stored = key_of(given, key_len);
    if !random.once_in(3) {
        let place = random.between(0, key_len - 1);
        stored[place as usize] ^= 1 << random.between(0, 7);
    }
    Bytes::Listed(stored)
}

/// Sets some of the sizes to values at or beyond their limits.
fn spoil(random: &mut Random, given: &mut LanesGiven, key_len: &mut u64) {
    if random.once_in(6) {
        *key_len = random.one_of(&[0, 1, 1024, 1025, 1 << 16]);
    }
    if random.once_in(6) {
        given.password = Bytes::Zeros(random.one_of(&[0, 1024, 1025, 1 << 16]));
    }
    if random.once_in(6) {
        given.salt = Bytes::Zeros(random.one_of(&[0, 7, 8, 64, 65, 1 << 16]));
    }
    if random.once_in(6) {
        given.t = random.one_of(&[0, 1, 256, 1 << 32 | 1, u64::MAX]);
    }
    if random.once_in(6) {
        given.c = random.one_of(&[0, 1, 257, 1 << 32 | 1, u64::MAX]);
    }
    if random.once_in(3) {
        let any = random.between(1, 9);
        given.p = random.one_of(&[0, 9, 1 << 32 | 1, u64::MAX, any]);
    }
    if random.once_in(3) {
        given.r = random.one_of(&[2, 3, 5, 8, given.r + 1, given.r + 2, given.r / 2, u64::MAX]);
    }
    if random.once_in(4) {
        given.matrix_words = given.matrix_words.saturating_sub(random.between(1, 40));
    }
}
