//! One lane: a sponge, the rows that it fills and visits, and the variables that a thread of Algorithm 3 has for itself (lines
//! 1 to 40).
//!
//! A lane reads other lanes' rows and in Setup also changes them, so it may not go past a meeting (SyncThreads in the
//! pseudocode) before the others are there. Each step says whether a meeting follows; who goes when is up to [`crate::lanes`].

use crate::derivation::squeeze;
use crate::matrix::{picking_word, sum, Column, Matrix, Row};
use crate::settings::Settings;
use crate::setup::{fill_and_revisit, fill_first, fill_from, StepRows};
use crate::sponge::{Counts, Sponge, State};
use crate::walk::{SetupWalk, FIRST_STEP};

/// The words that a rotation goes by, ω in the pseudocode.
const OMEGA: usize = Settings::USUAL.omega as usize;

/// The last row of the first interval of Setup; the first value of sync.
const FIRST_MEETING: usize = 4;

/// Lanes that share a matrix.
#[derive(Clone, Copy, Debug, PartialEq, Eq)]
pub struct Shape {
    /// How many lanes there are, p.
    pub lanes: usize,
    /// How many rows each of them has, R/p.
    pub lane_rows: usize,
}

impl Shape {
    /// A lane's row as one of the whole matrix.
    fn row(self, lane: usize, row: Row) -> Row {
        Row(lane * self.lane_rows + row.0)
    }
}

/// A lane in the middle of a derivation. Rows are here rows of a lane.
#[derive(Clone, Debug)]
pub struct Lane {
    number: usize,
    shape: Shape,
    sponge: Sponge,
    walk: SetupWalk,
    /// The row or the visit that the next meeting follows.
    sync: usize,
    /// The lane whose rows Setup revisits, j in the pseudocode.
    revisited: usize,
    /// The next row that Setup fills.
    next_row: usize,
    /// The next visit.
    next_visit: usize,
    /// Which half of its rows the lane visits, 0 or 1.
    half: usize,
    prev0: Row,
}

impl Lane {
    /// Lines 5 and 6: lane i, once its sponge has absorbed the input.
    pub fn new(number: usize, shape: Shape, sponge: Sponge) -> Lane {
        Lane {
            number,
            shape,
            sponge,
            walk: SetupWalk::start(),
            sync: FIRST_MEETING,
            revisited: number,
            next_row: 0,
            next_visit: 0,
            half: 0,
            prev0: Row(shape.lane_rows - 1),
        }
    }

    /// The sponge's state.
    pub fn state(&self) -> State {
        self.sponge.state()
    }

    /// The calls and rounds made so far.
    pub fn counts(&self) -> Counts {
        self.sponge.counts()
    }

    fn own(&self, row: Row) -> Row {
        self.shape.row(self.number, row)
    }

    /// Lines 8 to 22 for the next row, which there has to be; says whether a meeting follows. The last row is followed by one too
    /// (line 24).
    pub fn fill_next_row(&mut self, matrix: &mut Matrix) -> bool {
        let row0 = self.next_row;
        self.next_row += 1;
        let filled = self.own(Row(row0));
        match row0 {
            0 => fill_first(&mut self.sponge, matrix, filled),
            1 | 2 => {
                let previous = self.own(Row(row0 - 1));
                fill_from(&mut self.sponge, matrix, previous, filled);
            }
            FIRST_STEP.. => {
                self.fill_and_revisit(matrix, filled);
                self.walk.advance(row0);
            }
        }
        let is_last = self.next_row == self.shape.lane_rows;
        if row0 != self.sync {
            return is_last;
        }
        self.sync += self.walk.sqrt() / 2;
        self.revisited = (self.revisited + 1) % self.shape.lanes;
        true
    }

    /// Lines 12 to 16. Both revisited rows are those of lane j, also right after j has changed.
    fn fill_and_revisit(&mut self, matrix: &mut Matrix, filled: Row) {
        let rows = StepRows {
            row0: filled,
            prev0: self.own(self.walk.prev0()),
            row1: self.shape.row(self.revisited, self.walk.row1()),
            prev1: self.shape.row(self.revisited, self.walk.prev1()),
        };
        fill_and_revisit(&mut self.sponge, matrix, &rows, OMEGA);
    }

    /// Line 26, without the offsets, which `half` stands for.
    pub fn end_setup(&mut self) {
        self.sync = self.walk.sqrt();
    }

    /// Lines 28 to 35; says whether a meeting follows.
    pub fn make_next_visit(&mut self, matrix: &mut Matrix) -> bool {
        let rand = self.sponge.rand();
        let row0 = self.row_of_half(self.half, picking_word(&rand, 0, OMEGA));
        let row1 = self.row_of_half(1 - self.half, picking_word(&rand, 1, OMEGA));
        let lane = picking_word(&rand, 2, OMEGA) % self.shape.lanes as u64;
        self.visit(matrix, row0, self.shape.row(lane as usize, row1));
        self.prev0 = row0;
        let visit = self.next_visit;
        self.next_visit += 1;
        if visit != self.sync {
            return false;
        }
        self.sync += self.walk.sqrt();
        self.half = 1 - self.half;
        true
    }

    /// The row of a half that a word picks.
    fn row_of_half(&self, half: usize, word: u64) -> Row {
        let half_rows = self.shape.lane_rows / 2;
        Row(half * half_rows + (word % half_rows as u64) as usize)
    }

    /// Lines 29 to 33; the row that is only read is one of the whole matrix.
    fn visit(&mut self, matrix: &mut Matrix, row0: Row, read: Row) {
        let (written, previous) = (self.own(row0), self.own(self.prev0));
        for col in matrix.columns() {
            let col0 = matrix.column_from(picking_word(&self.sponge.rand(), 3, OMEGA));
            let two = sum(&matrix.cell(written, col), &matrix.cell(previous, col0));
            let rand = self.sponge.duplex(&sum(&two, &matrix.cell(read, col)));
            matrix.xor_into(written, col, &rand);
        }
    }

    /// Lines 39 and 40: the lane's key.
    pub fn key(&mut self, matrix: &Matrix, key_len: usize) -> Vec<u8> {
        let last = self.own(self.prev0);
        self.sponge.absorb_cell(&matrix.cell(last, Column(0)));
        let mut key = vec![0; key_len];
        squeeze(&mut self.sponge, &mut key);
        key
    }
}
