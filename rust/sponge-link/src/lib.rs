//! The proved permutation, called through the static library of the crate `sponge_export`.

mod foreign {
    extern "C" {
        pub fn lyra2_sponge_g(words: *mut u64, mixer: bool);
        pub fn lyra2_sponge_rounds(state: *mut u64, n: usize, mixer: bool);
    }
}

/// The sixteen words of the sponge.
pub type State = [u64; 16];

/// BLAKE2b's initial values (RFC 7693), the second half of the starting state.
pub const STARTING_WORDS: [u64; 8] = [
    0x6a09e667f3bcc908,
    0xbb67ae8584caa73b,
    0x3c6ef372fe94f82b,
    0xa54ff53a5f1d36f1,
    0x510e527fade682d1,
    0x9b05688c2b3e6c1f,
    0x1f83d9abfb41bd6b,
    0x5be0cd19137e2179,
];

/// G on a, b, c and d; `blamka` says whether the mixer is BlaMka, else it is the plain one.
pub fn g(words: &mut [u64; 4], blamka: bool) {
    // SAFETY: the pointer is to four words that nobody else holds while the call runs.
    unsafe { foreign::lyra2_sponge_g(words.as_mut_ptr(), blamka) }
}

/// Runs `n` rounds on the state. The Rattle function takes `&mut [u64; 16]`, which passes as a pointer,
/// and asks for nothing.
pub fn rounds(state: &mut State, n: usize, blamka: bool) {
    // SAFETY: the pointer is to sixteen words that nobody else holds while the call runs.
    unsafe { foreign::lyra2_sponge_rounds(state.as_mut_ptr(), n, blamka) }
}
