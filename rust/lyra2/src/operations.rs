//! The operations. Each hands its arguments on to the library and its answer back.

use crate::parameters::{Lengths, Mixer, Parameters, Settings};
use crate::refusal::Refusal;

/// Words of the sponge's state.
pub const STATE_WORDS: usize = 16;

/// What a call spends.
#[derive(Clone, Copy, Debug, PartialEq, Eq)]
pub struct Counts {
    /// Full calls of the permutation.
    pub full: u64,
    /// Reduced calls.
    pub reduced: u64,
    /// Rounds of all calls together: 12 for a full one, and for a reduced one as many as the settings say.
    pub rounds: u64,
}

impl Counts {
    /// The counts as the library stores them.
    pub(crate) fn stored([full, reduced, rounds]: lyra2_sys::Counts) -> Counts {
        Counts {
            full,
            reduced,
            rounds,
        }
    }
}

/// What a check answers.
#[derive(Clone, Copy, Debug, PartialEq, Eq)]
#[must_use]
pub struct Checked {
    /// Whether the stored bytes are the key.
    pub same: bool,
    /// What was spent.
    pub counts: Counts,
}

/// What a recorded derivation answers beside what it leaves in the lent buffers.
#[derive(Clone, Copy, Debug, PartialEq, Eq)]
pub struct Recorded {
    /// The state after the last visit, or after Setup where T is 0.
    pub state: [u64; STATE_WORDS],
    /// What was spent.
    pub counts: Counts,
}

fn input<'a>(
    password: &'a [u8],
    salt: &'a [u8],
    settings: impl Into<Settings>,
) -> lyra2_sys::Input<'a> {
    let Settings {
        parameters,
        rounds,
        rotation,
        mixer,
    } = settings.into();
    lyra2_sys::Input {
        password,
        salt,
        time: parameters.time,
        rows: parameters.rows,
        columns: parameters.columns,
        rounds,
        rotation,
        blamka: mixer == Mixer::BlaMka,
    }
}

/// The plain derivation: fills the key, whose length is the key length, and leaves zeros in the used matrix.
///
/// [`Parameters`] for settings stand for the usual choice. Words of the matrix past the used ones keep their contents.
/// Refusals, in the order of the checks: 1, 2, 3, 10, 4, 5, 6, 13, 14, 7.
pub fn derive(
    password: &[u8],
    salt: &[u8],
    settings: impl Into<Settings>,
    key: &mut [u8],
    matrix: &mut [u64],
) -> Result<Counts, Refusal> {
    let mut counts = [0; 3];
    let number = lyra2_sys::derive(input(password, salt, settings), key, matrix, &mut counts);
    Refusal::accepted(number)?;
    Ok(Counts::stored(counts))
}

/// The recorded derivation: the same key; keeps the end matrix, and fills the used record with the rows and columns
/// of each visit, two in a word: row0 + 65,536·row1, then col0 + 65,536·col1 for each column. [`visits`](crate::visits())
/// gives them back. With T = 0 there is no visit and no used record, so an empty one is enough.
///
/// Words of the matrix and the record past the used ones keep their contents. Refusals, in the order of the checks: 1, 2, 3, 10,
/// 4, 5, 6, 13, 14, 7, 8.
///
/// ```
/// use lyra2::{derive_recorded, Parameters};
///
/// let parameters = Parameters { time: 1, rows: 3, columns: 1 };
/// let (mut key, mut matrix, mut record) = ([0; 32], [0; 36], [0; 6]);
/// let recorded = derive_recorded(b"", b"saltsalt", parameters, &mut key, &mut matrix, &mut record)?;
///
/// // Each of the three visits wrote a word of its rows and, for the only column, one of col0 and col1.
/// for visit in record.chunks(2) {
///     assert!(visit[0] % 65_536 < 3 && visit[0] / 65_536 < 3);
///     assert_eq!(visit[1], 0);
/// }
/// assert_eq!(recorded.counts.reduced, 6);
/// # Ok::<(), lyra2::Refusal>(())
/// ```
pub fn derive_recorded(
    password: &[u8],
    salt: &[u8],
    settings: impl Into<Settings>,
    key: &mut [u8],
    matrix: &mut [u64],
    record: &mut [u64],
) -> Result<Recorded, Refusal> {
    let (mut state, mut counts) = ([0; STATE_WORDS], [0; 3]);
    let number = lyra2_sys::derive_recorded(
        input(password, salt, settings),
        key,
        matrix,
        record,
        &mut state,
        &mut counts,
    );
    Refusal::accepted(number)?;
    Ok(Recorded {
        state,
        counts: Counts::stored(counts),
    })
}

/// The check: derives a key as long as the stored one and tells whether they are the same.
///
/// The comparison looks at every byte, wherever the keys differ. The used matrix ends as zeros,
/// as [`derive()`] leaves it. Refusals as of [`derive()`].
pub fn check(
    password: &[u8],
    salt: &[u8],
    settings: impl Into<Settings>,
    stored: &[u8],
    matrix: &mut [u64],
) -> Result<Checked, Refusal> {
    let (mut same, mut counts) = (0, [0; 3]);
    let number = lyra2_sys::check(
        input(password, salt, settings),
        stored,
        matrix,
        &mut same,
        &mut counts,
    );
    Refusal::accepted(number)?;
    Ok(Checked {
        same: same == 1,
        counts: Counts::stored(counts),
    })
}

/// The cost question: what a derivation or a check spends, with nothing derived. Rotation and mixer change no count, so
/// only the rounds of a reduced call are asked for. Refusals, in the order of the checks: 1, 2, 3, 10, 4, 5, 6, 13.
pub fn cost(lengths: Lengths, parameters: Parameters, rounds: usize) -> Result<Counts, Refusal> {
    let mut counts = [0; 3];
    let sizes = lyra2_sys::Sizes {
        key: lengths.key,
        password: lengths.password,
        salt: lengths.salt,
        time: parameters.time,
        rows: parameters.rows,
        columns: parameters.columns,
        rounds,
    };
    let number = lyra2_sys::cost(sizes, &mut counts);
    Refusal::accepted(number)?;
    Ok(Counts::stored(counts))
}

/// The walk question: the row that Setup revisits while it fills `row0`. Refusals 5 and 9.
///
/// ```
/// assert_eq!(lyra2::walk(8, 5), Ok(3));
/// assert_eq!(lyra2::walk(8, 2), Err(lyra2::Refusal::WalkRow));
/// ```
pub fn walk(rows: usize, row0: usize) -> Result<usize, Refusal> {
    let mut row1 = 0;
    let number = lyra2_sys::walk(rows, row0, &mut row1);
    Refusal::accepted(number)?;
    Ok(row1)
}
