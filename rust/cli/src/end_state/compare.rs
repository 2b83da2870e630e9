//! Comparing two end-state files.

use super::read::Reader;
use super::{Header, FIELDS};
use crate::failure::Failure;
use crate::progress;
use lyra2::{CELL_WORDS, STATE_WORDS};
use std::fmt;
use std::path::Path;

/// What the comparison of a part comes to.
enum Part {
    Equal,
    /// The first difference, in words.
    Parts(String),
    /// T, R or C differ, so that the words stand for other places.
    NotCompared,
}

/// What the comparison of two files comes to.
pub struct Comparison {
    header: Part,
    state: Part,
    matrix: Part,
    record: Part,
}

/// A place in a part, counted in numbers, and what the two files have there. A word is a number, but in a packed record.
struct Difference {
    place: u64,
    found: [u64; 2],
}

/// Compares two files to their ends, so that a damaged one is noticed wherever they part.
pub fn compare(first: &Path, second: &Path) -> Result<Comparison, Failure> {
    // A name without a length is told when it is opened.
    let bytes = |path: &Path| path.metadata().map_or(0, |found| found.len());
    let bar = progress::by_bytes("reading", bytes(first) + bytes(second));
    let (header, mut first) = Reader::open(first, &bar)?;
    let (other, mut second) = Reader::open(second, &bar)?;
    let files = &mut [&mut first, &mut second];
    let state = first_difference(files, STATE_WORDS as u64, Reader::words::<1>)?;
    let columns = header.settings.parameters.columns as u64;
    let [matrix, record] = if header.settings.parameters == other.settings.parameters {
        let matrix = first_difference(files, header.matrix_words(), Reader::words::<1>)?;
        let record = first_difference(files, header.record_pairs(), Reader::pair)?;
        [
            Part::of(matrix, |at| {
                format!("{}: {}", cell_place(at.place, columns), at.hexadecimal())
            }),
            Part::of(record, |at| {
                format!("{}: {}", visit_place(at.place, columns), at.decimal())
            }),
        ]
    } else {
        skip(files[0], &header)?;
        skip(files[1], &other)?;
        [Part::NotCompared, Part::NotCompared]
    };
    first.close()?;
    second.close()?;
    Ok(Comparison {
        header: header_part(&header, &other),
        state: Part::of(state, |at| {
            format!("word {}: {}", at.place, at.hexadecimal())
        }),
        matrix,
        record,
    })
}

/// Reads so many groups of numbers of both files and returns where they first differ.
fn first_difference<const NUMBERS: usize>(
    [first, second]: &mut [&mut Reader; 2],
    groups: u64,
    next: impl Fn(&mut Reader) -> Result<[u64; NUMBERS], Failure>,
) -> Result<Option<Difference>, Failure> {
    let mut difference = None;
    for group in 0..groups {
        let found = [next(first)?, next(second)?];
        let differing = (0..NUMBERS).find(|&at| found[0][at] != found[1][at]);
        if let (None, Some(at)) = (&difference, differing) {
            difference = Some(Difference {
                place: group * NUMBERS as u64 + at as u64,
                found: found.map(|numbers| numbers[at]),
            });
        }
    }
    Ok(difference)
}

/// Reads matrix and record without a look at them.
fn skip(file: &mut Reader, header: &Header) -> Result<(), Failure> {
    for _ in 0..header.matrix_words() {
        file.words::<1>()?;
    }
    for _ in 0..header.record_pairs() {
        file.pair()?;
    }
    Ok(())
}

/// Compares the headers field by field.
fn header_part(header: &Header, other: &Header) -> Part {
    let (fields, others) = (header.fields(), other.fields());
    let differing = (0..FIELDS.len()).find(|&place| fields[place] != others[place]);
    differing.map_or(Part::Equal, |place| {
        let [first, second] = [header, other].map(|header| header.shown(place));
        Part::Parts(format!("{}: {first} and {second}", FIELDS[place]))
    })
}

/// The words for a word of the matrix.
fn cell_place(place: u64, columns: u64) -> String {
    let (cell, word) = (place / CELL_WORDS as u64, place % CELL_WORDS as u64);
    let (row, column) = (cell / columns, cell % columns);
    format!("row {row}, column {column}, word {word}")
}

/// The words for a number of the record.
fn visit_place(place: u64, columns: u64) -> String {
    let picks = 2 + 2 * columns;
    let (visit, pick) = (place / picks, place % picks);
    match pick {
        0 | 1 => format!("visit {visit}, row{pick}"),
        _ => format!("visit {visit}, column {}, col{}", pick / 2 - 1, pick % 2),
    }
}

impl Difference {
    fn decimal(&self) -> String {
        let [first, second] = self.found;
        format!("{first} and {second}")
    }

    fn hexadecimal(&self) -> String {
        let [first, second] = self.found;
        format!("{first:016x} and {second:016x}")
    }
}

impl Part {
    fn of(difference: Option<Difference>, words: impl Fn(&Difference) -> String) -> Part {
        difference.map_or(Part::Equal, |difference| Part::Parts(words(&difference)))
    }
}

impl Comparison {
    /// The parts in the order of the file.
    fn parts(&self) -> [(&'static str, &Part); 4] {
        [
            ("header", &self.header),
            ("state", &self.state),
            ("matrix", &self.matrix),
            ("record", &self.record),
        ]
    }

    /// Whether the files have the same contents.
    pub fn is_equal(&self) -> bool {
        self.first().is_none()
    }

    /// The difference that is first in time, with the name of its part: the walk writes the record on its way
    /// and leaves state and matrix at its end.
    fn first(&self) -> Option<(&'static str, &str)> {
        let [header, state, matrix, record] = self.parts();
        let in_time = [header, record, state, matrix];
        in_time.into_iter().find_map(|(name, part)| match part {
            Part::Parts(words) => Some((name, words.as_str())),
            Part::Equal | Part::NotCompared => None,
        })
    }
}

impl fmt::Display for Comparison {
    fn fmt(&self, f: &mut fmt::Formatter<'_>) -> fmt::Result {
        let Some((name, words)) = self.first() else {
            return writeln!(f, "equal");
        };
        writeln!(f, "different, first in the {name}: {words}")?;
        for (name, part) in self.parts() {
            match part {
                Part::Equal => writeln!(f, "{name}: equal")?,
                Part::Parts(words) => writeln!(f, "{name}: parts at {words}")?,
                Part::NotCompared => writeln!(f, "{name}: not compared, since T, R or C differ")?,
            }
        }
        Ok(())
    }
}
