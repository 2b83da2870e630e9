//! The Setup phase: every row of the matrix is filled once (Algorithm 2, lines 6 to 21).
//!
//! A lane fills its rows by the same rules (Algorithm 3, lines 8 to 16), so that a row is here one of the whole matrix.

use crate::matrix::{rot, sum, xor, Matrix, Row};
use crate::sponge::Sponge;
use crate::walk::{SetupWalk, FIRST_STEP};

/// The rows of a Setup step.
pub struct StepRows {
    /// The row to fill.
    pub row0: Row,
    /// The row filled last.
    pub prev0: Row,
    /// The row to revisit.
    pub row1: Row,
    /// The row revisited last.
    pub prev1: Row,
}

/// Fills the matrix and returns the walk as the last step leaves it; the rotation is by ω words.
pub fn setup(sponge: &mut Sponge, matrix: &mut Matrix, omega: usize) -> SetupWalk {
    fill_first(sponge, matrix, Row(0));
    fill_from(sponge, matrix, Row(0), Row(1));
    fill_from(sponge, matrix, Row(1), Row(2));
    let mut walk = SetupWalk::start();
    for row0 in FIRST_STEP..matrix.rows() {
        let rows = StepRows {
            row0: Row(row0),
            prev0: walk.prev0(),
            row1: walk.row1(),
            prev1: walk.prev1(),
        };
        fill_and_revisit(sponge, matrix, &rows, omega);
        walk.advance(row0);
    }
    walk
}

/// Line 7, of Algorithm 3 line 8: the sponge's first row.
pub fn fill_first(sponge: &mut Sponge, matrix: &mut Matrix, row0: Row) {
    for col in matrix.columns() {
        matrix.write(row0, matrix.mirrored(col), &sponge.rand());
        sponge.reduced_call();
    }
}

/// Lines 8 and 9, of Algorithm 3 lines 9 and 10, which differ in their rows alone.
pub fn fill_from(sponge: &mut Sponge, matrix: &mut Matrix, prev0: Row, row0: Row) {
    for col in matrix.columns() {
        let cell = matrix.cell(prev0, col);
        let rand = sponge.duplex(&cell);
        matrix.write(row0, matrix.mirrored(col), &xor(&cell, &rand));
    }
}

/// Lines 11 to 15, of Algorithm 3 lines 12 to 16.
pub fn fill_and_revisit(sponge: &mut Sponge, matrix: &mut Matrix, rows: &StepRows, omega: usize) {
    for col in matrix.columns() {
        let previous = matrix.cell(rows.prev0, col);
        let two = sum(&matrix.cell(rows.row1, col), &previous);
        let three = sum(&two, &matrix.cell(rows.prev1, col));
        let rand = sponge.duplex(&three);
        matrix.write(rows.row0, matrix.mirrored(col), &xor(&previous, &rand));
        matrix.xor_into(rows.row1, col, &rot(&rand, omega));
    }
}
