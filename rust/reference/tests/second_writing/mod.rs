//! Lyra2 written a second time, apart from the library, with a switch for each misreading.
//!
//! Only the starting words are the library's; `b2sum` vouches for those.

use lyra2_reference::sponge::{Counts, State, STARTING_WORDS};
use lyra2_reference::Mixer::{self, BlaMka, Plain};

#[derive(Clone, Copy, Debug, PartialEq, Eq)]
pub enum Misreading {
    /// Document 01 as it stands.
    Correct,
    /// Setup rows are written from column 0 upward.
    SetupUpward,
    /// col0 and col1 are kept for the whole row.
    ColumnsKept,
    /// The sum's cells are read after the first XOR, which then has the earlier output only.
    SumAfterXor,
    /// An input that fills its block is not padded.
    FullBlockUnpadded,
    /// A call is made before the first key piece, beyond the absorb's own.
    ExtraCall,
    /// Where row0 = row1, the second XOR starts from the cell as it was before the first.
    FirstXorLost,
    /// With T = 0 a visit is made all the same.
    OneVisitAtLeast,
    /// With T = 0 the last cell is that of row 0.
    LastCellOfRow0,
    /// With T = 0 the last cell is that of the row that Setup revisited last.
    LastCellRevisited,
    /// rot turns to the left: word j of rot(x) is word j − ω.
    RotatedLeft,
    /// Setup's rot goes by two words, whatever ω.
    SetupRotatesByTwo,
    /// The visits' rot goes by two words, whatever ω.
    VisitsRotateByTwo,
    /// The picks go by words 0, 2, 4 and 6, whatever ω.
    PicksByTwo,
    /// col0 goes by word ω, as row1 does.
    Col0ByOmega,
    /// The picks go by words 0, ω, 2ω and 3ω modulo 16, so that they leave the output.
    PicksOfWholeState,
    /// A full call has ρ rounds too.
    FullCallsOfRho,
    /// Setup's calls have one round, whatever ρ.
    SetupOfOneRound,
    /// The visits' calls have one round, whatever ρ.
    VisitsOfOneRound,
    /// A reduced call counts as one round, whatever ρ.
    RoundsCountedOnce,
    /// ρ and ω follow C in the input, unless they are the usual choice.
    SettingsAbsorbed,
    /// BlaMka multiplies this many low bits and not 32; with 64 it multiplies whole words.
    LowBits(u32),
    /// BlaMka's product is taken this many times.
    ProductTimes(u64),
    /// BlaMka's addition of this number in G, from 0 on, is plain.
    PlainAddition(usize),
    /// The sums of cells go by the mixer too.
    CellsSummedByMixer,
    /// The mixer is always the plain one.
    MixerIgnored,
    /// Plain is taken for BlaMka, and BlaMka for plain.
    MixersExchanged,
    /// These calls are plain, whatever the mixer.
    PlainCalls(&'static [Call]),
    /// A number for BlaMka follows C in the input.
    MixerAbsorbed,
    /// A record has each number in a word of its own, as before request #108.
    RecordUnpacked,
    /// The second number of a record's word is the low one.
    RecordExchanged,
    /// The second number of a column's word is the low one; the rows' words are right.
    RecordColumnsExchanged,
    /// The second number of a record's word is multiplied by this.
    RecordFactor(u64),
    /// The numbers of a record's word are cut to this many bits.
    RecordCut(u32),
    /// A record has the rows' word of a visit twice.
    RecordRowsTwice,
    /// A record has the rows' word of a visit after the columns'.
    RecordRowsLast,
    /// A record has no word for a visit's rows.
    RecordRowsLeftOut,
}

/// What a call of the sponge is made for.
#[derive(Clone, Copy, Debug, PartialEq, Eq)]
pub enum Call {
    /// A block of the input was absorbed.
    Input,
    /// A cell of Setup.
    Setup,
    /// A cell of a visit.
    Visit,
    /// The last cell was absorbed.
    LastCell,
    /// A further piece of the key is wanted.
    Key,
}

use Misreading::*;

type Cell = [u64; 12];

/// A derivation in progress.
struct Derivation {
    misreading: Misreading,
    state: State,
    counts: Counts,
    rows: usize,
    columns: usize,
    rho: usize,
    omega: usize,
    mixer: Mixer,
    cells: Vec<Cell>,
    prev0: usize,
    prev1: usize,
    record: Vec<u64>,
}

impl Derivation {
    fn full_call(&mut self, call: Call) {
        let rounds = match self.misreading {
            FullCallsOfRho => self.rho,
            _ => 12,
        };
        self.permute(rounds, call);
        self.counts.full += 1;
        self.counts.rounds += rounds as u64;
    }

    fn reduced_call(&mut self, call: Call) {
        let rounds = match (self.misreading, call) {
            (SetupOfOneRound, Call::Setup) | (VisitsOfOneRound, Call::Visit) => 1,
            _ => self.rho,
        };
        self.permute(rounds, call);
        self.counts.reduced += 1;
        self.counts.rounds += match self.misreading {
            RoundsCountedOnce => 1,
            _ => rounds as u64,
        };
    }

    /// The four columns of the state, then its four diagonals, so many times over.
    fn permute(&mut self, rounds: usize, call: Call) {
        let mixer = match (self.misreading, self.mixer) {
            (MixerIgnored, _) | (MixersExchanged, BlaMka) => Plain,
            (MixersExchanged, Plain) => BlaMka,
            (PlainCalls(calls), _) if calls.contains(&call) => Plain,
            (_, mixer) => mixer,
        };
        for _ in 0..rounds {
            for turn in 0..2 {
                for i in 0..4 {
                    self.mix(mixer, [0, 1, 2, 3].map(|k| 4 * k + (i + k * turn) % 4));
                }
            }
        }
    }

    /// G on four places of the state: twice a sum, a turn, a sum and a turn.
    fn mix(&mut self, mixer: Mixer, [a, b, c, d]: [usize; 4]) {
        let misreading = self.misreading;
        let v = &mut self.state;
        for (first, turns) in [(0, [32, 24]), (2, [16, 63])] {
            v[a] = added(misreading, mixer, first, v[a], v[b]);
            v[d] = (v[d] ^ v[a]).rotate_right(turns[0]);
            v[c] = added(misreading, mixer, first + 1, v[c], v[d]);
            v[b] = (v[b] ^ v[c]).rotate_right(turns[1]);
        }
    }

    fn xor(&mut self, words: &[u64]) {
        self.state.iter_mut().zip(words).for_each(|(s, w)| *s ^= w);
    }

    fn absorb(&mut self, words: &[u64], call: Call) {
        self.xor(words);
        self.full_call(call);
    }

    /// The words of the state by which row0, row1, col0 and col1 are picked.
    fn picking_words(&self) -> [u64; 4] {
        let places = match self.misreading {
            PicksByTwo => [0, 2, 4, 6],
            Col0ByOmega => [0, 1, 1, 3].map(|k| k * self.omega % 12),
            PicksOfWholeState => [0, 1, 2, 3].map(|k| k * self.omega % 16),
            _ => [0, 1, 2, 3].map(|k| k * self.omega % 12),
        };
        places.map(|place| self.state[place])
    }

    /// The rotation in Setup, or in a visit.
    fn rot(&self, x: Cell, in_setup: bool) -> Cell {
        let words = match (self.misreading, in_setup) {
            (RotatedLeft, _) => 12 - self.omega,
            (SetupRotatesByTwo, true) | (VisitsRotateByTwo, false) => 2,
            _ => self.omega,
        };
        std::array::from_fn(|j| x[(j + words) % 12])
    }

    fn rand(&self) -> Cell {
        std::array::from_fn(|j| self.state[j])
    }

    fn at(&self, row: usize, col: usize) -> usize {
        row * self.columns + col
    }

    fn sum(&self, places: &[usize]) -> Cell {
        std::array::from_fn(|j| {
            let words = places.iter().map(|&place| self.cells[place][j]);
            words.fold(0, |x, y| match self.misreading {
                CellsSummedByMixer => added(Correct, self.mixer, 0, x, y),
                _ => x.wrapping_add(y),
            })
        })
    }

    fn xor_into(&mut self, place: usize, words: Cell) {
        (0..12).for_each(|j| self.cells[place][j] ^= words[j]);
    }

    /// The place in a row that Setup writes.
    fn written(&self, row: usize, col: usize) -> usize {
        match self.misreading {
            SetupUpward => self.at(row, col),
            _ => self.at(row, self.columns - 1 - col),
        }
    }

    fn setup(&mut self) {
        for col in 0..self.columns {
            let place = self.written(0, col);
            self.cells[place] = self.rand();
            self.reduced_call(Call::Setup);
        }
        let (mut gap, mut stp, mut wnd, mut sqrt, mut row1) = (1isize, 1, 2, 2usize, 1);
        for row0 in 1..self.rows {
            for col in 0..self.columns {
                self.fill(row0, row1, col);
            }
            if row0 < 3 {
                continue;
            }
            (self.prev0, self.prev1) = (row0, row1);
            row1 = (row1 + stp) % wnd;
            if row1 == 0 {
                (wnd, stp) = (2 * wnd, sqrt.wrapping_add_signed(gap));
                gap = -gap;
                sqrt = if gap == -1 { 2 * sqrt } else { sqrt };
            }
        }
    }

    /// One column of a Setup row; rows 1 and 2 revisit nothing.
    fn fill(&mut self, row0: usize, row1: usize, col: usize) {
        let previous = self.at(row0 - 1, col);
        let revisited = self.at(row1, col);
        let input = match row0 {
            1 | 2 => self.cells[previous],
            _ => self.sum(&[revisited, previous, self.at(self.prev1, col)]),
        };
        let old = self.cells[previous];
        self.xor(&input);
        self.reduced_call(Call::Setup);
        let rand = self.rand();
        let place = self.written(row0, col);
        self.cells[place] = std::array::from_fn(|j| old[j] ^ rand[j]);
        if row0 >= 3 {
            self.xor_into(revisited, self.rot(rand, true));
        }
    }

    fn visit(&mut self) {
        let first = self.picking_words();
        let [row0, row1] = [first[0], first[1]].map(|word| (word % self.rows as u64) as usize);
        let first_word = self.record.len();
        self.note([row0, row1], true);
        for col in 0..self.columns {
            let words = match self.misreading {
                ColumnsKept => first,
                _ => self.picking_words(),
            };
            let column = |word: u64| (word % self.columns as u64) as usize;
            let [col0, col1] = [words[2], words[3]].map(column);
            self.note([col0, col1], false);
            let previous = [self.at(self.prev0, col0), self.at(self.prev1, col1)];
            self.duplex_and_xor(self.at(row0, col), self.at(row1, col), previous);
        }
        if self.misreading == RecordRowsLast {
            self.record[first_word..].rotate_left(1);
        }
        (self.prev0, self.prev1) = (row0, row1);
    }

    /// Adds two rows or two columns to the record.
    fn note(&mut self, numbers: [usize; 2], are_rows: bool) {
        let [mut low, mut high] = numbers.map(|number| number as u64);
        let (mut factor, mut times) = (1 << 16, 1);
        match self.misreading {
            RecordUnpacked => return self.record.extend([low, high]),
            RecordColumnsExchanged if are_rows => (),
            RecordExchanged | RecordColumnsExchanged => (low, high) = (high, low),
            RecordFactor(other) => factor = other,
            RecordCut(bits) => (low, high) = (low % (1 << bits), high % (1 << bits)),
            RecordRowsTwice if are_rows => times = 2,
            RecordRowsLeftOut if are_rows => times = 0,
            _ => (),
        }
        self.record
            .extend(std::iter::repeat_n(low + factor * high, times));
    }

    fn duplex_and_xor(&mut self, first: usize, second: usize, previous: [usize; 2]) {
        if self.misreading == SumAfterXor {
            self.xor_into(first, self.rand());
        }
        let input = self.sum(&[first, second, previous[0], previous[1]]);
        let second_before = self.cells[second];
        self.xor(&input);
        self.reduced_call(Call::Visit);
        let rand = self.rand();
        if self.misreading != SumAfterXor {
            self.xor_into(first, rand);
        }
        if self.misreading == FirstXorLost {
            self.cells[second] = second_before;
        }
        self.xor_into(second, self.rot(rand, false));
    }
}

/// The addition of this number in G, from 0 on.
fn added(misreading: Misreading, mixer: Mixer, number: usize, x: u64, y: u64) -> u64 {
    let plain = x.wrapping_add(y);
    if mixer == Plain || misreading == PlainAddition(number) {
        return plain;
    }
    let (bits, times) = match misreading {
        LowBits(bits) => (bits, 2),
        ProductTimes(times) => (32, times),
        _ => (32, 2),
    };
    let low = |word: u64| word << (64 - bits) >> (64 - bits);
    let product = low(x).wrapping_mul(low(y));
    plain.wrapping_add(product.wrapping_mul(times))
}

/// What a derivation is made from: key length, password, salt, T, R, C, ρ, ω and the mixer.
pub struct Inputs {
    pub key_len: usize,
    pub password: Vec<u8>,
    pub salt: Vec<u8>,
    pub t: usize,
    pub r: usize,
    pub c: usize,
    pub rho: usize,
    pub omega: usize,
    pub mixer: Mixer,
}

/// What a recorded derivation ends with. The plain one has the same key, and leaves nothing of the matrix.
pub struct End {
    pub key: Vec<u8>,
    pub state: State,
    pub counts: Counts,
    pub matrix: Vec<u64>,
    pub record: Vec<u64>,
}

fn padded(inputs: &Inputs, misreading: Misreading) -> Vec<u8> {
    let lengths = [inputs.key_len, inputs.password.len(), inputs.salt.len()];
    let mut input = [inputs.password.as_slice(), &inputs.salt].concat();
    let mut numbers = [lengths, [inputs.t, inputs.r, inputs.c]].concat();
    let settings = [inputs.rho, inputs.omega];
    if misreading == SettingsAbsorbed && settings != [1, 2] {
        numbers.extend(settings);
    }
    if misreading == MixerAbsorbed && inputs.mixer == BlaMka {
        numbers.push(1);
    }
    for number in numbers {
        input.extend((number as u32).to_le_bytes());
    }
    let padding = 64 - input.len() % 64;
    match padding {
        64 if misreading == FullBlockUnpadded => (),
        1 => input.push(0x81),
        _ => {
            input.push(0x80);
            input.extend(vec![0; padding - 2]);
            input.push(0x01);
        }
    }
    input
}

/// The derivation up to its last visit, or to Setup's end where it has none.
fn visited(inputs: &Inputs, misreading: Misreading) -> Derivation {
    let mut derivation = Derivation {
        misreading,
        state: [0; 16],
        counts: Counts::default(),
        rows: inputs.r,
        columns: inputs.c,
        rho: inputs.rho,
        omega: inputs.omega,
        mixer: inputs.mixer,
        cells: vec![[0; 12]; inputs.r * inputs.c],
        prev0: 2,
        prev1: 0,
        record: Vec::new(),
    };
    derivation.state[8..].copy_from_slice(&STARTING_WORDS);
    for block in padded(inputs, misreading).chunks(64) {
        let word = |bytes: &[u8]| u64::from_le_bytes(bytes.try_into().unwrap());
        let words: Vec<_> = block.chunks(8).map(word).collect();
        derivation.absorb(&words, Call::Input);
    }
    derivation.setup();
    (0..inputs.r * inputs.t).for_each(|_| derivation.visit());
    match misreading {
        OneVisitAtLeast if inputs.t == 0 => derivation.visit(),
        LastCellOfRow0 if inputs.t == 0 => derivation.prev0 = 0,
        LastCellRevisited if inputs.t == 0 => derivation.prev0 = derivation.prev1,
        _ => (),
    }
    derivation
}

/// The end of a recorded derivation by this reading of document 01.
pub fn derive(inputs: &Inputs, misreading: Misreading) -> End {
    let mut derivation = visited(inputs, misreading);
    let state = derivation.state;
    let last = derivation.cells[derivation.at(derivation.prev0, 0)];
    derivation.absorb(&last, Call::LastCell);
    if misreading == ExtraCall {
        derivation.full_call(Call::Key);
    }
    let mut key = Vec::new();
    while key.len() < inputs.key_len {
        if !key.is_empty() {
            derivation.full_call(Call::Key);
        }
        key.extend(derivation.rand().into_iter().flat_map(u64::to_le_bytes));
    }
    key.truncate(inputs.key_len);
    End {
        key,
        state,
        counts: derivation.counts,
        matrix: derivation.cells.concat(),
        record: derivation.record,
    }
}
