//! The sponge: BLAKE2b's permutation without message words, or BlaMka's, and the counted calls made of it.

use crate::settings::Mixer;

/// Words of the state.
pub const STATE_WORDS: usize = 16;
/// Words of an input block, the rate while the padded input is absorbed.
pub const BLOCK_WORDS: usize = 8;
/// Words of a cell, the rate of every later call.
pub const CELL_WORDS: usize = 12;
/// Rounds of a full call.
pub const FULL_ROUNDS: u64 = 12;

/// BLAKE2b's initialization vector, the upper half of the starting state.
pub const STARTING_WORDS: [u64; 8] = [
    0x6a09e667f3bcc908,
    0xbb67ae8584caa73b,
    0x3c6ef372fe94f82b,
    0xa54ff53a5f1d36f1,
    0x510e527fade682d1,
    0x9b05688c2b3e6c1f,
    0x1f83d9abfb41bd6b,
    0x5be0cd19137e2179,
];

/// The state positions that a round gives to G, in order: four columns, then four diagonals.
const QUADS: [[usize; 4]; 8] = [
    [0, 4, 8, 12],
    [1, 5, 9, 13],
    [2, 6, 10, 14],
    [3, 7, 11, 15],
    [0, 5, 10, 15],
    [1, 6, 11, 12],
    [2, 7, 8, 13],
    [3, 4, 9, 14],
];

/// The sponge's state.
pub type State = [u64; STATE_WORDS];
/// The contents of a cell, and also the sponge's output (document 01 calls it rand).
pub type Cell = [u64; CELL_WORDS];

/// An addition of G. Carries past bit 63 are dropped, from the doubled product as well.
pub fn add(a: u64, b: u64, mixer: Mixer) -> u64 {
    let sum = a.wrapping_add(b);
    match mixer {
        Mixer::Plain => sum,
        Mixer::BlaMka => {
            let product = low_half(a) * low_half(b);
            sum.wrapping_add(product).wrapping_add(product)
        }
    }
}

/// The low 32 bits; the product of two such numbers has room in a word.
fn low_half(word: u64) -> u64 {
    word & 0xffff_ffff
}

/// BLAKE2b's G on four words, with no message words and with the additions of the mixer.
pub fn g([mut a, mut b, mut c, mut d]: [u64; 4], mixer: Mixer) -> [u64; 4] {
    a = add(a, b, mixer);
    d = (d ^ a).rotate_right(32);
    c = add(c, d, mixer);
    b = (b ^ c).rotate_right(24);
    a = add(a, b, mixer);
    d = (d ^ a).rotate_right(16);
    c = add(c, d, mixer);
    b = (b ^ c).rotate_right(63);
    [a, b, c, d]
}

/// One round of the permutation.
pub fn round(state: &mut State, mixer: Mixer) {
    for quad in QUADS {
        let mixed = g(quad.map(|place| state[place]), mixer);
        for (place, word) in quad.into_iter().zip(mixed) {
            state[place] = word;
        }
    }
}

/// What a derivation spends, counted in calls and in rounds.
#[derive(Clone, Copy, Debug, Default, PartialEq, Eq)]
pub struct Counts {
    /// Full calls.
    pub full: u64,
    /// Reduced calls.
    pub reduced: u64,
    /// Rounds of both kinds of call together.
    pub rounds: u64,
}

/// What several sponges spend together.
impl std::iter::Sum for Counts {
    fn sum<I: Iterator<Item = Counts>>(all: I) -> Counts {
        all.fold(Counts::default(), |x, y| Counts {
            full: x.full + y.full,
            reduced: x.reduced + y.reduced,
            rounds: x.rounds + y.rounds,
        })
    }
}

/// A state together with the count of the calls that were made on it.
#[derive(Clone, Debug)]
pub struct Sponge {
    state: State,
    counts: Counts,
    reduced_rounds: u64,
    mixer: Mixer,
}

impl Sponge {
    /// The starting state: eight zero words, then BLAKE2b's initialization vector. A reduced call will have this
    /// many rounds, ρ in the pseudocode, and every call will go by this mixer.
    pub fn start(reduced_rounds: u64, mixer: Mixer) -> Sponge {
        let mut state = [0; STATE_WORDS];
        state[8..].copy_from_slice(&STARTING_WORDS);
        let counts = Counts::default();
        Sponge {
            state,
            counts,
            reduced_rounds,
            mixer,
        }
    }

    /// The whole state.
    pub fn state(&self) -> State {
        self.state
    }

    /// The calls and rounds made so far.
    pub fn counts(&self) -> Counts {
        self.counts
    }

    /// The output: words 0 to 11 of the state as it stands.
    pub fn rand(&self) -> Cell {
        let mut rand = [0; CELL_WORDS];
        rand.copy_from_slice(&self.state[..CELL_WORDS]);
        rand
    }

    /// A call of twelve rounds.
    pub fn full_call(&mut self) {
        self.counts.full += 1;
        self.permute(FULL_ROUNDS);
    }

    /// A call of ρ rounds.
    pub fn reduced_call(&mut self) {
        self.counts.reduced += 1;
        self.permute(self.reduced_rounds);
    }

    /// Absorbs a block of the padded input.
    pub fn absorb_block(&mut self, block: &[u64; BLOCK_WORDS]) {
        self.xor(block);
        self.full_call();
    }

    /// Absorbs a cell, at the wider rate.
    pub fn absorb_cell(&mut self, cell: &Cell) {
        self.xor(cell);
        self.full_call();
    }

    /// Duplexes a cell and returns the output.
    pub fn duplex(&mut self, cell: &Cell) -> Cell {
        self.xor(cell);
        self.reduced_call();
        self.rand()
    }

    fn xor(&mut self, words: &[u64]) {
        for (state_word, word) in self.state.iter_mut().zip(words) {
            *state_word ^= word;
        }
    }

    fn permute(&mut self, rounds: u64) {
        for _ in 0..rounds {
            round(&mut self.state, self.mixer);
            self.counts.rounds += 1;
        }
    }
}
