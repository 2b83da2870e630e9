//! The matrix: cells found by row and column in the lent words, and the operations on whole cells.

use crate::sponge::{Cell, CELL_WORDS};
use std::ops::Range;

/// A row number.
#[derive(Clone, Copy, Debug, PartialEq, Eq)]
pub struct Row(pub usize);

/// A column number.
#[derive(Clone, Copy, Debug, PartialEq, Eq)]
pub struct Column(pub usize);

/// The used part of the lent matrix.
pub struct Matrix<'a> {
    words: &'a mut [u64],
    rows: usize,
    columns: usize,
}

impl<'a> Matrix<'a> {
    /// Takes the used part of the lent words, which are at least 12·rows·columns.
    pub fn new(lent: &'a mut [u64], rows: usize, columns: usize) -> Matrix<'a> {
        let words = &mut lent[..CELL_WORDS * rows * columns];
        Matrix {
            words,
            rows,
            columns,
        }
    }

    /// The number of rows, R.
    pub fn rows(&self) -> usize {
        self.rows
    }

    /// Every column, from 0 upward.
    pub fn columns(&self) -> impl Iterator<Item = Column> {
        (0..self.columns).map(Column)
    }

    /// The column that Setup writes while it reads this one.
    pub fn mirrored(&self, col: Column) -> Column {
        Column(self.columns - 1 - col.0)
    }

    /// The row that a word picks.
    pub fn row_from(&self, word: u64) -> Row {
        Row((word % self.rows as u64) as usize)
    }

    /// The column that a word picks.
    pub fn column_from(&self, word: u64) -> Column {
        Column((word % self.columns as u64) as usize)
    }

    /// Reads a cell.
    pub fn cell(&self, row: Row, col: Column) -> Cell {
        let mut cell = [0; CELL_WORDS];
        cell.copy_from_slice(&self.words[self.place(row, col)]);
        cell
    }

    /// Overwrites a cell.
    pub fn write(&mut self, row: Row, col: Column, cell: &Cell) {
        let place = self.place(row, col);
        self.words[place].copy_from_slice(cell);
    }

    /// XORs words into a cell.
    pub fn xor_into(&mut self, row: Row, col: Column, cell: &Cell) {
        let changed = xor(&self.cell(row, col), cell);
        self.write(row, col, &changed);
    }

    /// Puts zero into every word of every cell.
    pub fn wipe(&mut self) {
        self.words.fill(0);
    }

    fn place(&self, row: Row, col: Column) -> Range<usize> {
        let start = CELL_WORDS * (row.0 * self.columns + col.0);
        start..start + CELL_WORDS
    }
}

/// XOR of two cells.
pub fn xor(x: &Cell, y: &Cell) -> Cell {
    std::array::from_fn(|j| x[j] ^ y[j])
}

/// Wordwise sum of two cells.
pub fn sum(x: &Cell, y: &Cell) -> Cell {
    std::array::from_fn(|j| x[j].wrapping_add(y[j]))
}

/// The rotation by ω words: the first words go last.
pub fn rot(x: &Cell, omega: usize) -> Cell {
    std::array::from_fn(|j| x[(j + omega) % CELL_WORDS])
}

/// The word of rand by which pick number k goes, the first word of the k times rotated rand: 0 is for row0, 1 for row1,
/// 2 for col0 and 3 for col1.
pub fn picking_word(rand: &Cell, k: usize, omega: usize) -> u64 {
    rand[k * omega % CELL_WORDS]
}
