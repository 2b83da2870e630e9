//! The operations open to callers that derive a key, and the key's output (Algorithm 2, lines 33 to 36).

use crate::input::{absorb_input, padded_input, Parameters};
use crate::matrix::{Column, Matrix};
use crate::record;
use crate::refusal::{self, Refusal};
use crate::settings::Settings;
use crate::setup::setup;
use crate::sponge::{Counts, Sponge, State, CELL_WORDS};
use crate::visits::{visit_all, Rows};

/// Bytes of key that one state gives.
const PIECE_BYTES: usize = 8 * CELL_WORDS;

/// What a derivation is made from, apart from the lent buffers.
#[derive(Clone, Copy, Debug)]
pub struct Inputs<'a> {
    /// The password.
    pub password: &'a [u8],
    /// The salt.
    pub salt: &'a [u8],
    /// The time cost T.
    pub t: u64,
    /// The number of rows R.
    pub r: u64,
    /// The number of columns C.
    pub c: u64,
    /// The settings.
    pub settings: Settings,
}

impl Inputs<'_> {
    /// The six numbers of the input, for a key of this length.
    pub fn parameters(&self, key_len: usize) -> Parameters {
        Parameters {
            key_len: key_len as u64,
            password_len: self.password.len() as u64,
            salt_len: self.salt.len() as u64,
            t: self.t,
            r: self.r,
            c: self.c,
        }
    }
}

/// What the recorded derivation returns beside the lent buffers.
#[derive(Clone, Copy, Debug, PartialEq, Eq)]
pub struct Recorded {
    /// The state after the last visit, or after Setup where T is 0.
    pub state: State,
    /// What was spent.
    pub counts: Counts,
}

/// What a check returns.
#[derive(Clone, Copy, Debug, PartialEq, Eq)]
pub struct Checked {
    /// Whether the derived key is the stored one.
    pub matches: bool,
    /// What was spent.
    pub counts: Counts,
}

/// The recorded derivation: fills the key and the used record, and keeps its end matrix, since comparing
/// that is what it is for.
pub fn derive_recorded(
    inputs: &Inputs,
    key: &mut [u8],
    matrix: &mut [u64],
    record: &mut [u64],
) -> Result<Recorded, Refusal> {
    let given = inputs.parameters(key.len());
    refusal::check_record(&given, inputs.settings, matrix, record)?;
    let mut places = record.iter_mut();
    let mut note = |numbers: [usize; 2]| {
        if let Some(place) = places.next() {
            *place = record::word(numbers.map(|number| number as u64));
        }
    };
    Ok(run(inputs, key, matrix, &mut note))
}

/// The plain derivation: fills the key and leaves zeros in the used matrix.
pub fn derive(inputs: &Inputs, key: &mut [u8], matrix: &mut [u64]) -> Result<Counts, Refusal> {
    refusal::check_matrix(&inputs.parameters(key.len()), inputs.settings, matrix)?;
    Ok(run_and_wipe(inputs, key, matrix))
}

/// The check: derives a key as long as the stored one, says whether they are equal, and leaves zeros in the
/// used matrix.
pub fn check(inputs: &Inputs, stored: &[u8], matrix: &mut [u64]) -> Result<Checked, Refusal> {
    refusal::check_matrix(&inputs.parameters(stored.len()), inputs.settings, matrix)?;
    let mut key = vec![0; stored.len()];
    let counts = run_and_wipe(inputs, &mut key, matrix);
    let matches = equal(&key, stored);
    Ok(Checked { matches, counts })
}

/// A run without a record, after which the used matrix tells nothing of the password: the caller may lend the
/// same memory to others.
fn run_and_wipe(inputs: &Inputs, key: &mut [u8], lent: &mut [u64]) -> Counts {
    let counts = run(inputs, key, lent, &mut |_| ()).counts;
    Matrix::new(lent, inputs.r as usize, inputs.c as usize).wipe();
    counts
}

/// Algorithm 2, for inputs and buffers that no check refuses. The used matrix then holds the end matrix.
fn run(
    inputs: &Inputs,
    key: &mut [u8],
    lent: &mut [u64],
    note: &mut impl FnMut([usize; 2]),
) -> Recorded {
    let Settings { rho, omega, mixer } = inputs.settings;
    let omega = omega as usize;
    let parameters = inputs.parameters(key.len());
    let mut sponge = Sponge::start(rho, mixer);
    let input = padded_input(inputs.password, inputs.salt, &parameters);
    absorb_input(&mut sponge, &input);

    let mut matrix = Matrix::new(lent, inputs.r as usize, inputs.c as usize);
    let walk = setup(&mut sponge, &mut matrix, omega);

    let after_setup = Rows {
        row0: walk.prev0(),
        row1: walk.prev1(),
    };
    let visits = inputs.r * inputs.t;
    let last = visit_all(&mut sponge, &mut matrix, visits, after_setup, omega, note);
    let state = sponge.state();

    sponge.absorb_cell(&matrix.cell(last.row0, Column(0)));
    squeeze(&mut sponge, key);
    let counts = sponge.counts();
    Recorded { state, counts }
}

/// Line 35, of Algorithm 3 line 40: a full call stands between two pieces of the key, and none before or after them.
pub(crate) fn squeeze(sponge: &mut Sponge, key: &mut [u8]) {
    for (number, piece) in key.chunks_mut(PIECE_BYTES).enumerate() {
        if number > 0 {
            sponge.full_call();
        }
        let output = sponge.rand().map(u64::to_le_bytes);
        piece.copy_from_slice(&output.as_flattened()[..piece.len()]);
    }
}

/// Compares without an early end, so that the time tells nothing of the first difference.
pub(crate) fn equal(key: &[u8], stored: &[u8]) -> bool {
    let differences = key
        .iter()
        .zip(stored)
        .fold(0, |seen, (x, y)| seen | (x ^ y));
    std::hint::black_box(differences) == 0
}
