//! The checksum of the vectors file: FNV-1a with 64 bits.

/// The checksum of some bytes.
pub fn of_bytes(bytes: impl IntoIterator<Item = u8>) -> u64 {
    bytes.into_iter().fold(0xcbf2_9ce4_8422_2325, |sum, byte| {
        (sum ^ u64::from(byte)).wrapping_mul(0x0000_0100_0000_01b3)
    })
}

/// The checksum of some words, taken over their little-endian bytes.
pub fn of_words(words: &[u64]) -> u64 {
    of_bytes(words.iter().flat_map(|word| word.to_le_bytes()))
}

/// The checksum of this many zero words, none of which has to be held.
pub fn of_zero_words(count: u64) -> u64 {
    of_bytes((0..8 * count).map(|_| 0))
}
