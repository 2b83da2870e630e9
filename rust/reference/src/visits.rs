//! The visits (Wandering phase): R·T pairs of rows that the output picks (Algorithm 2, lines 22 to 32).

use crate::matrix::{picking_word, rot, sum, Matrix, Row};
use crate::sponge::Sponge;

/// The two rows of a visit.
#[derive(Clone, Copy)]
pub struct Rows {
    /// The row that receives the output.
    pub row0: Row,
    /// The row that receives the rotated output.
    pub row1: Row,
}

/// Makes the visits, notes down the two rows of each and the two columns that each of its columns picks, and returns the
/// rows of the last visit, or Setup's last rows where no visit is made. Rotation and picks go by ω.
pub fn visit_all(
    sponge: &mut Sponge,
    matrix: &mut Matrix,
    visits: u64,
    after_setup: Rows,
    omega: usize,
    note: &mut impl FnMut([usize; 2]),
) -> Rows {
    let mut prev = after_setup;
    for _ in 0..visits {
        let rand = sponge.rand();
        let rows = Rows {
            row0: matrix.row_from(picking_word(&rand, 0, omega)),
            row1: matrix.row_from(picking_word(&rand, 1, omega)),
        };
        note([rows.row0.0, rows.row1.0]);
        visit(sponge, matrix, rows, prev, omega, note);
        prev = rows;
    }
    prev
}

/// Lines 25 to 30.
fn visit(
    sponge: &mut Sponge,
    matrix: &mut Matrix,
    rows: Rows,
    prev: Rows,
    omega: usize,
    note: &mut impl FnMut([usize; 2]),
) {
    for col in matrix.columns() {
        let rand = sponge.rand();
        let col0 = matrix.column_from(picking_word(&rand, 2, omega));
        let col1 = matrix.column_from(picking_word(&rand, 3, omega));
        note([col0.0, col1.0]);
        let visited = sum(&matrix.cell(rows.row0, col), &matrix.cell(rows.row1, col));
        let previous = sum(&matrix.cell(prev.row0, col0), &matrix.cell(prev.row1, col1));
        let rand = sponge.duplex(&sum(&visited, &previous));
        matrix.xor_into(rows.row0, col, &rand);
        matrix.xor_into(rows.row1, col, &rot(&rand, omega));
    }
}
