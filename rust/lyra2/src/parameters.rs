//! The numbers that a call is given, their limits, and the sizes of the buffers to lend for them.

use lyra2_memory::{Memory, NoMemory};
use std::ops::RangeInclusive;

/// Key lengths in bytes that are accepted.
pub const KEY_LENGTHS: RangeInclusive<usize> = 1..=1024;
/// Password lengths in bytes that are accepted.
pub const PASSWORD_LENGTHS: RangeInclusive<usize> = 0..=1024;
/// Salt lengths in bytes that are accepted.
pub const SALT_LENGTHS: RangeInclusive<usize> = 8..=64;
/// Values of T that are accepted. With 0 the matrix is filled and no visit is made.
pub const TIME_COSTS: RangeInclusive<usize> = 0..=255;
/// Values of R that are accepted.
pub const ROWS: RangeInclusive<usize> = 3..=16_384;
/// Values of C that are accepted.
pub const COLUMNS: RangeInclusive<usize> = 1..=256;
/// Rounds of a reduced call, ρ, that are accepted.
pub const ROUNDS: RangeInclusive<usize> = 1..=12;
/// Words of the rotation, ω, that are accepted.
pub const ROTATIONS: RangeInclusive<usize> = 1..=11;

/// The usual number of rounds of a reduced call.
pub const USUAL_ROUNDS: usize = 1;
/// The usual rotation.
pub const USUAL_ROTATION: usize = 2;
/// The usual mixer.
pub const USUAL_MIXER: Mixer = Mixer::Plain;

/// Words of a cell of the matrix.
pub const CELL_WORDS: usize = 12;

/// The cost parameters.
#[derive(Clone, Copy, Debug, PartialEq, Eq)]
pub struct Parameters {
    /// The time cost T: R·T visits are made after the matrix is filled, so none with 0, which leaves the least
    /// work to whoever guesses.
    pub time: usize,
    /// The number of rows R.
    pub rows: usize,
    /// The number of columns C.
    pub columns: usize,
}

impl Parameters {
    /// Words of the used matrix, 12·R·C; None if that number has no room in a `usize`.
    ///
    /// Numbers outside the limits have a size too, and a call with them is refused.
    pub fn matrix_words(self) -> Option<usize> {
        let cells = self.rows.checked_mul(self.columns)?;
        cells.checked_mul(CELL_WORDS)
    }

    /// Words of the used record, R·T·(1+C); None if that number has no room in a `usize`.
    ///
    /// [`visits`](crate::visits()) reads them.
    pub fn record_words(self) -> Option<usize> {
        let row_words = self.rows.checked_mul(self.time)?;
        let column_words = row_words.checked_mul(self.columns)?;
        row_words.checked_add(column_words)
    }

    /// Memory for the matrix: [`Parameters::matrix_words`] zeros.
    ///
    /// Numbers outside the limits may ask for any size, so it is best asked for after [`cost`](crate::cost()) has
    /// accepted them.
    pub fn matrix(self) -> Result<Memory, NoMemory> {
        zeros(self.matrix_words())
    }

    /// Memory for the record: [`Parameters::record_words`] zeros, which with T = 0 are none.
    pub fn record(self) -> Result<Memory, NoMemory> {
        zeros(self.record_words())
    }
}

/// How the permutation adds two words a and b, in full and reduced calls alike. Carries past bit 63 are dropped.
///
/// The sums of cells are plain with either. No call is refused for its mixer, and none counts other calls or rounds.
#[derive(Clone, Copy, Debug, PartialEq, Eq)]
pub enum Mixer {
    /// a + b.
    Plain,
    /// a + b, and twice the product of the low halves of both. A round takes longer.
    BlaMka,
}

/// All that a derivation or a check goes by beside password, salt and key length.
///
/// [`Parameters`] alone stand for the usual choice, [`USUAL_ROUNDS`], [`USUAL_ROTATION`] and [`USUAL_MIXER`]; every
/// operation that takes settings takes them too. Another choice is written as a change of that one:
///
/// ```
/// use lyra2::{Mixer, Parameters, Settings};
///
/// let parameters = Parameters { time: 1, rows: 64, columns: 16 };
/// let heavier = Settings { rounds: 4, ..parameters.into() };
/// assert_eq!((heavier.parameters, heavier.rotation), (parameters, 2));
/// assert_eq!(heavier.mixer, Mixer::Plain);
/// ```
///
/// Unlike T, R and C the rounds, the rotation and the mixer are not absorbed with the input, and no key shows which they
/// were. Who stores a key of another choice stores the choice beside it; a login line and an account have no room for it.
#[derive(Clone, Copy, Debug, PartialEq, Eq)]
pub struct Settings {
    /// T, R and C, which give the sizes of matrix and record.
    pub parameters: Parameters,
    /// The rounds of a reduced call, ρ. More of them make a derivation dearer over the same matrix.
    pub rounds: usize,
    /// The rotation ω. Word j of an output that is rotated is its word (j + ω) mod 12, and a visit picks rows and columns
    /// by the words 0, ω, 2·ω and 3·ω of the output, each mod 12. With T = 0 and R up to 4 nothing that was rotated is
    /// read again, and all rotations give one key.
    pub rotation: usize,
    /// The mixer.
    pub mixer: Mixer,
}

/// The usual choice.
impl From<Parameters> for Settings {
    fn from(parameters: Parameters) -> Settings {
        Settings {
            parameters,
            rounds: USUAL_ROUNDS,
            rotation: USUAL_ROTATION,
            mixer: USUAL_MIXER,
        }
    }
}

fn zeros(words: Option<usize>) -> Result<Memory, NoMemory> {
    Memory::zeros(words.ok_or(NoMemory { bytes: None })?)
}

/// The lengths that the cost question is about, in bytes.
#[derive(Clone, Copy, Debug, PartialEq, Eq)]
pub struct Lengths {
    /// Key length.
    pub key: usize,
    /// Password length.
    pub password: usize,
    /// Salt length.
    pub salt: usize,
}
