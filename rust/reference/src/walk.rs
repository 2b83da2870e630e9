//! The Setup walk: which row each Setup step revisits (Algorithm 2, lines 4, 5 and 16 to 20; a lane's is the same, Algorithm 3,
//! lines 5, 6 and 17 to 21).

use crate::matrix::Row;
use crate::refusal::{self, Refusal};

/// The first row that a Setup step fills; rows 0 to 2 are filled beforehand.
pub const FIRST_STEP: usize = 3;

/// The variables of the walk, as they stand when a Setup step begins.
#[derive(Clone, Debug)]
pub struct SetupWalk {
    prev0: usize,
    row1: usize,
    prev1: usize,
    gap: isize,
    stp: usize,
    wnd: usize,
    sqrt: usize,
}

impl SetupWalk {
    /// Lines 4 and 5: the variables before the step of row 3.
    pub fn start() -> SetupWalk {
        SetupWalk {
            prev0: 2,
            row1: 1,
            prev1: 0,
            gap: 1,
            stp: 1,
            wnd: 2,
            sqrt: 2,
        }
    }

    /// Lines 16 to 20: the variables after the step of row0.
    pub fn advance(&mut self, row0: usize) {
        self.prev0 = row0;
        self.prev1 = self.row1;
        self.row1 = (self.row1 + self.stp) % self.wnd;
        if self.row1 == 0 {
            self.wnd *= 2;
            self.stp = self.sqrt.wrapping_add_signed(self.gap);
            self.gap = -self.gap;
            if self.gap == -1 {
                self.sqrt *= 2;
            }
        }
    }

    /// The row filled last.
    pub(crate) fn prev0(&self) -> Row {
        Row(self.prev0)
    }

    /// The row to revisit.
    pub(crate) fn row1(&self) -> Row {
        Row(self.row1)
    }

    /// The row revisited last.
    pub(crate) fn prev1(&self) -> Row {
        Row(self.prev1)
    }

    /// The step between revisited rows.
    pub fn stp(&self) -> usize {
        self.stp
    }

    /// The variable after which the step and, in Algorithm 3, the distance of two meetings go.
    pub fn sqrt(&self) -> usize {
        self.sqrt
    }

    /// The size of the window that the revisited rows come from.
    pub fn wnd(&self) -> usize {
        self.wnd
    }
}

/// The pairs (row0, row1) of the Setup steps of a matrix with r rows.
fn steps(r: usize) -> impl Iterator<Item = (usize, usize)> {
    let mut walk = SetupWalk::start();
    (FIRST_STEP..r).map(move |row0| {
        let row1 = walk.row1;
        walk.advance(row0);
        (row0, row1)
    })
}

/// The walk question: row1 of the Setup step that fills row0, in a matrix of r rows.
pub fn walk(r: u64, row0: u64) -> Result<u64, Refusal> {
    refusal::check_walk(r, row0)?;
    let mut walk = SetupWalk::start();
    for earlier_row in FIRST_STEP..row0 as usize {
        walk.advance(earlier_row);
    }
    Ok(walk.row1 as u64)
}

/// The walk program: from the whole standard input to the whole standard output.
pub fn walk_program(input: &[u8]) -> Vec<u8> {
    let accepted = read_rows(input).filter(|r| refusal::ROWS.contains(r));
    let text = match accepted {
        Some(r) => steps(r as usize)
            .map(|(row0, row1)| format!("{row0} {row1}\n"))
            .collect(),
        None => format!("refused {}\n", Refusal::Rows.number()),
    };
    text.into_bytes()
}

/// Reads one to five digits without a leading zero, one newline and the end; anything else is None.
fn read_rows(input: &[u8]) -> Option<u64> {
    let digits = input.strip_suffix(b"\n")?;
    let well_formed = (1..=5).contains(&digits.len())
        && digits.iter().all(u8::is_ascii_digit)
        && digits[0] != b'0';
    let value = |sum: u64, digit: &u8| 10 * sum + u64::from(digit - b'0');
    well_formed.then(|| digits.iter().fold(0, value))
}
