//! The padded input: password, salt and the numbers, cut into blocks (Algorithm 2, lines 1 to 3; Algorithm 3, lines 3 and 4).

use crate::sponge::{Sponge, BLOCK_WORDS, CELL_WORDS};

/// Bytes of an input block.
pub const BLOCK_BYTES: usize = 8 * BLOCK_WORDS;

/// Bytes of each number in the input.
pub const NUMBER_BYTES: u64 = 4;

/// The six numbers that close the input, in their order there (params in the pseudocode). The input of a lane has two more.
#[derive(Clone, Copy, Debug, PartialEq, Eq)]
pub struct Parameters {
    /// Key length in bytes.
    pub key_len: u64,
    /// Password length in bytes.
    pub password_len: u64,
    /// Salt length in bytes.
    pub salt_len: u64,
    /// The time cost T.
    pub t: u64,
    /// The number of rows R.
    pub r: u64,
    /// The number of columns C.
    pub c: u64,
}

impl Parameters {
    /// Words of the used matrix; the largest number if the product has no room in 64 bits.
    pub fn matrix_words(&self) -> u64 {
        let cells = self.r.saturating_mul(self.c);
        cells.saturating_mul(CELL_WORDS as u64)
    }

    /// Words of the used record; the largest number if the product has no room in 64 bits.
    pub fn record_words(&self) -> u64 {
        let words_per_visit = self.c.saturating_add(1);
        let visits = self.r.saturating_mul(self.t);
        visits.saturating_mul(words_per_visit)
    }

    /// The six numbers in their order.
    fn numbers(&self) -> [u64; 6] {
        [
            self.key_len,
            self.password_len,
            self.salt_len,
            self.t,
            self.r,
            self.c,
        ]
    }
}

/// The input with its padding, for parameters that no check refuses.
pub fn padded_input(password: &[u8], salt: &[u8], parameters: &Parameters) -> Vec<u8> {
    padded(password, salt, &parameters.numbers())
}

/// The same of lane i of p: the two numbers follow the six.
pub fn padded_lane_input(
    password: &[u8],
    salt: &[u8],
    parameters: &Parameters,
    p: u64,
    i: u64,
) -> Vec<u8> {
    let numbers = [&parameters.numbers()[..], &[p, i]].concat();
    padded(password, salt, &numbers)
}

/// Each number is within the limits of the refusals, so that four bytes hold it.
fn padded(password: &[u8], salt: &[u8], numbers: &[u64]) -> Vec<u8> {
    let mut input = [password, salt].concat();
    for number in numbers {
        input.extend(&number.to_le_bytes()[..NUMBER_BYTES as usize]);
    }
    let unpadded = input.len();
    // One past the last full block: an input that fills its block gets a whole block of padding.
    let padded = (unpadded / BLOCK_BYTES + 1) * BLOCK_BYTES;
    input.resize(padded, 0);
    input[unpadded] = 0x80;
    // Added to the byte, not put in its place: a single byte of padding is both first and last.
    input[padded - 1] += 0x01;
    input
}

/// Absorbs a padded input, block by block.
pub fn absorb_input(sponge: &mut Sponge, padded_input: &[u8]) {
    for block in padded_input.chunks_exact(BLOCK_BYTES) {
        let mut words = [0; BLOCK_WORDS];
        for (word, bytes) in words.iter_mut().zip(block.chunks_exact(8)) {
            let mut little_endian = [0; 8];
            little_endian.copy_from_slice(bytes);
            *word = u64::from_le_bytes(little_endian);
        }
        sponge.absorb_block(&words);
    }
}
