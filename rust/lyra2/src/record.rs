//! Reading a visit record: the words of a visit, and the numbers in a word.

/// The two numbers in a word of a record: row0 and row1 in the first word of a visit, col0 and col1 of a column in every
/// other.
///
/// The library's function takes any word, and leaves out none of its bits: the first number is the word mod 65,536, the
/// second the word divided by that. In a word that no derivation writes they may be no row and no column.
///
/// ```
/// use lyra2::record_pair;
///
/// assert_eq!(record_pair(7 + 65_536 * 12), [7, 12]);
/// assert_eq!(record_pair(u64::MAX), [65_535, (1 << 48) - 1]);
/// ```
pub fn record_pair(word: u64) -> [u64; 2] {
    lyra2_sys::record_pair(word)
}

/// A visit, as a record has it.
#[derive(Clone, Copy, Debug, PartialEq, Eq)]
pub struct Visit<'a> {
    /// The word of the rows, then one for each column. There is always the first.
    words: &'a [u64],
}

impl<'a> Visit<'a> {
    /// row0 and row1.
    pub fn rows(self) -> [u64; 2] {
        record_pair(self.words[0])
    }

    /// col0 and col1 of each column, from column 0 on.
    pub fn columns(self) -> impl DoubleEndedIterator<Item = [u64; 2]> + ExactSizeIterator + 'a {
        self.words[1..].iter().map(|&word| record_pair(word))
    }
}

/// The visits of a record of a derivation with so many columns, in their order. Nothing is allocated.
///
/// The words may be any, so the numbers are the reader's to check where the record comes from elsewhere. Words after the
/// last whole visit belong to none and are left out. Of a record that was lent too long, the visits past the
/// [used words](crate::Parameters::record_words) are whatever lay there.
///
/// ```
/// use lyra2::visits;
///
/// // With two columns a visit has three words.
/// let record = [7 + 65_536 * 12, 1, 65_536, 8];
/// let mut visits = visits(&record, 2);
/// let visit = visits.next().expect("a whole visit");
/// assert_eq!(visit.rows(), [7, 12]);
/// assert_eq!(visit.columns().collect::<Vec<_>>(), [[1, 0], [0, 1]]);
/// assert_eq!(visits.next(), None);
/// ```
pub fn visits(
    record: &[u64],
    columns: usize,
) -> impl DoubleEndedIterator<Item = Visit<'_>> + ExactSizeIterator {
    // No slice has as many words as the number to which a sum without room is cut.
    let visit_words = columns.saturating_add(1);
    record
        .chunks_exact(visit_words)
        .map(|words| Visit { words })
}
