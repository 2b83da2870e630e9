//! Several lanes: that many sponges over one matrix, whose keys make one.

use crate::operations::{Checked, Counts};
use crate::parameters::{Lengths, Parameters, TIME_COSTS};
use crate::refusal::Refusal;
use std::ops::RangeInclusive;

/// Numbers of lanes that are accepted.
pub const LANE_COUNTS: RangeInclusive<usize> = 1..=8;
/// Values of T that are accepted with lanes.
pub const LANES_TIME_COSTS: RangeInclusive<usize> = 1..=*TIME_COSTS.end();
/// The rows that a lane has at least.
pub const LANE_ROWS_MIN: usize = 4;

/// All that a derivation or a check with several lanes goes by beside password, salt and key length. Rounds, rotation and
/// mixer are always the usual ones.
///
/// R is the number of rows of all lanes together, and [`Parameters::matrix`] is the memory for them. With p lanes it has
/// to be a multiple of 2·p, and each lane has to have at least [`LANE_ROWS_MIN`] of them; T has to be at least 1.
///
/// Every number of lanes gives another key, and one lane gives another key than [`derive`](crate::derive()). A key does
/// not show how many they were: who stores it stores their number beside it. A login line and an account have no room
/// for that. The lanes run in turn, in the thread of the caller, so more of them are not faster.
#[derive(Clone, Copy, Debug, PartialEq, Eq)]
pub struct Lanes {
    /// T, R and C.
    pub parameters: Parameters,
    /// The number of lanes, p.
    pub count: usize,
}

impl Lanes {
    fn input<'a>(self, password: &'a [u8], salt: &'a [u8]) -> lyra2_sys::LanesInput<'a> {
        lyra2_sys::LanesInput {
            password,
            salt,
            time: self.parameters.time,
            rows: self.parameters.rows,
            columns: self.parameters.columns,
            lanes: self.count,
        }
    }

    /// The derivation: fills the key, whose length is the key length, and leaves zeros in the used matrix.
    ///
    /// Words of the matrix past the used ones keep their contents. Refusals, in the order of the checks: 1, 2, 3, 10, 4, 5,
    /// 6, 20, 7.
    pub fn derive(
        self,
        password: &[u8],
        salt: &[u8],
        key: &mut [u8],
        matrix: &mut [u64],
    ) -> Result<Counts, Refusal> {
        let mut counts = [0; 3];
        let input = self.input(password, salt);
        let number = lyra2_sys::lanes_derive(input, key, matrix, &mut counts);
        Refusal::accepted(number)?;
        Ok(Counts::stored(counts))
    }

    /// The check: derives a key as long as the stored one and tells whether they are the same.
    ///
    /// The comparison looks at every byte, wherever the keys differ. The used matrix ends as zeros. Refusals as of
    /// [`Lanes::derive`].
    pub fn check(
        self,
        password: &[u8],
        salt: &[u8],
        stored: &[u8],
        matrix: &mut [u64],
    ) -> Result<Checked, Refusal> {
        let (mut same, mut counts) = (0, [0; 3]);
        let input = self.input(password, salt);
        let number = lyra2_sys::lanes_check(input, stored, matrix, &mut same, &mut counts);
        Refusal::accepted(number)?;
        Ok(Checked {
            same: same == 1,
            counts: Counts::stored(counts),
        })
    }

    /// The cost question: what a derivation or a check spends, all lanes together, with nothing derived. Refusals, in the
    /// order of the checks: 1, 2, 3, 10, 4, 5, 6, 20.
    pub fn cost(self, lengths: Lengths) -> Result<Counts, Refusal> {
        let mut counts = [0; 3];
        let sizes = lyra2_sys::LanesSizes {
            key: lengths.key,
            password: lengths.password,
            salt: lengths.salt,
            time: self.parameters.time,
            rows: self.parameters.rows,
            columns: self.parameters.columns,
            lanes: self.count,
        };
        let number = lyra2_sys::lanes_cost(sizes, &mut counts);
        Refusal::accepted(number)?;
        Ok(Counts::stored(counts))
    }
}
