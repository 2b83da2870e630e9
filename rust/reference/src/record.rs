//! The words of the visit record (request #108): how two numbers make one of them, and how a record is read.

/// What the second number of a word is multiplied by. It is above every row and column that is accepted, so that a
/// word tells both its numbers.
const FACTOR: u64 = 65_536;

/// The word for two numbers of a visit.
pub fn word([first, second]: [u64; 2]) -> u64 {
    first + FACTOR * second
}

/// The two numbers of a word. The second is all that is left, however large, so that no two words give the same.
pub fn numbers(word: u64) -> [u64; 2] {
    [word % FACTOR, word / FACTOR]
}

/// A visit as the record tells it.
#[derive(Clone, Debug, PartialEq, Eq)]
pub struct Visit {
    /// row0 and row1.
    pub rows: [u64; 2],
    /// col0 and col1 of each column, from column 0 on.
    pub columns: Vec<[u64; 2]>,
}

impl Visit {
    /// The words that the visit writes.
    pub fn words(&self) -> Vec<u64> {
        let columns = self.columns.iter().copied();
        std::iter::once(self.rows)
            .chain(columns)
            .map(word)
            .collect()
    }
}

/// The visits of a used record, for this number of columns.
pub fn visits(used_record: &[u64], columns: usize) -> Vec<Visit> {
    let visit = |words: &[u64]| Visit {
        rows: numbers(words[0]),
        columns: words[1..].iter().copied().map(numbers).collect(),
    };
    used_record.chunks_exact(1 + columns).map(visit).collect()
}
