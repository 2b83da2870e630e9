//! The buffers that a program works in, with the matrix on ordinary pages or on large ones.

use lyra2_memory::Memory;
use lyra2_reference::Inputs;

/// Bytes of a line of the cache.
const LINE_BYTES: usize = 64;

/// The pages that a matrix lies on.
#[derive(Clone, Copy, Debug, PartialEq, Eq)]
pub enum Pages {
    /// Those of a Vec, which are large ones too where the system gives them unasked.
    Ordinary,
    /// Those of memory that asks for large ones.
    Large,
}

/// The buffers that a program works in. All get the same ones in turn, so that no program has better pages.
pub struct Lent {
    /// The key that a check is asked about.
    pub stored: [u8; 32],
    /// The place for the derived key.
    pub key: [u8; 32],
    /// The place for the visit record.
    pub record: Vec<u64>,
    matrix: Matrix,
}

enum Matrix {
    /// The matrix from `start` on.
    Ordinary { words: Vec<u64>, start: usize },
    /// The whole memory.
    Large(Memory),
}

impl Lent {
    /// Buffers for a derivation from these inputs, none of them zeros, so that their pages are there.
    pub fn new(inputs: &Inputs) -> Lent {
        Lent::on(Pages::Ordinary, inputs)
    }

    /// The same with the matrix on these pages.
    pub fn on(pages: Pages, inputs: &Inputs) -> Lent {
        let given = inputs.parameters(32);
        let words = given.matrix_words() as usize;
        let mut lent = Lent {
            stored: [1; 32],
            key: [1; 32],
            record: vec![1; given.record_words() as usize],
            matrix: match pages {
                Pages::Ordinary => Matrix::ordinary(words),
                Pages::Large => Matrix::Large(Memory::zeros(words).expect("enough memory")),
            },
        };
        lent.matrix().fill(1);
        lent
    }

    /// The matrix; it starts with a line of the cache.
    pub fn matrix(&mut self) -> &mut [u64] {
        self.matrix.words()
    }

    /// The places for the key and the matrix.
    pub fn key_and_matrix(&mut self) -> (&mut [u8], &mut [u64]) {
        (&mut self.key, self.matrix.words())
    }

    /// The places for the key, the matrix and the visit record.
    pub fn all(&mut self) -> (&mut [u8], &mut [u64], &mut [u64]) {
        (&mut self.key, self.matrix.words(), &mut self.record)
    }
}

impl Matrix {
    fn ordinary(matrix_words: usize) -> Matrix {
        let mut words = vec![0; matrix_words + LINE_BYTES / 8];
        let start = words.as_ptr().align_offset(LINE_BYTES);
        words.truncate(start + matrix_words);
        Matrix::Ordinary { words, start }
    }

    fn words(&mut self) -> &mut [u64] {
        match self {
            Matrix::Ordinary { words, start } => &mut words[*start..],
            Matrix::Large(memory) => memory,
        }
    }
}
