//! Books of accounts in files: reading one, and changing one whole or not at all.

use crate::exclusive::Change;
use crate::failure::Failure;
use crate::memory::{self, Bytes};
use crate::reading::fill;
use crate::secret::wipe_stack;
use lyra2::{Book, Refusal};
use std::fs::{self, File};
use std::io::{self, ErrorKind};
use std::path::Path;

/// Bytes of a book at most. The time to look through one grows with the square of the number of its accounts.
const MOST: usize = 1 << 24;

/// What a file stands for that is not there.
#[derive(Clone, Copy, PartialEq)]
pub enum Missing {
    /// A book without accounts.
    Empty,
    /// Nothing that an account could be taken from.
    Wrong,
}

/// Reads the book of a file, which may be a link.
pub fn read(path: &Path) -> Result<Book<Bytes>, Failure> {
    let of_path = |error| Failure::of_file(path, error);
    // Opened first, a pipe would make the program wait.
    let found = fs::metadata(path).map_err(of_path)?;
    if !found.is_file() {
        return Err(Failure::of_file(path, "not a regular file"));
    }
    load(path, File::open(path).map_err(of_path)?, 0)
}

/// Requires a book that can be changed, before anybody types a password for it.
pub fn require_changeable(path: &Path) -> Result<(), Failure> {
    let (_, book) = begin(path, 0, Missing::Empty)?;
    Ok(book.require_good()?)
}

/// Changes the book of a file, with room for so many bytes more, while no other program does. The file gets the book as
/// the work leaves it, or stays as it was if the work is refused or anything goes wrong.
pub fn change<A>(
    path: &Path,
    room: usize,
    missing: Missing,
    work: impl FnOnce(&mut Book<Bytes>) -> Result<A, Refusal>,
) -> Result<A, Failure> {
    let (change, mut book) = begin(path, room, missing)?;
    let answer = work(&mut book);
    wipe_stack();
    let answer = answer?;
    let put = change.put(book.used_bytes());
    put.map_err(|error| Failure::of_file(path, error))?;
    Ok(answer)
}

/// The right to change the book of a file, and the book.
fn begin(path: &Path, room: usize, missing: Missing) -> Result<(Change, Book<Bytes>), Failure> {
    let of_path = |error| Failure::of_file(path, error);
    let change = Change::begin(path).map_err(of_path)?;
    let book = match change.old() {
        Err(error) if error.kind() == ErrorKind::NotFound && missing == Missing::Empty => {
            Book::new(memory::bytes("book", room)?, 0)
        }
        old => load(path, old.map_err(of_path)?, room)?,
    };
    Ok((change, book))
}

/// The book of an open file, with room for so many bytes more, but no more than a book has at most.
fn load(path: &Path, mut file: File, room: usize) -> Result<Book<Bytes>, Failure> {
    let of_path = |error: io::Error| Failure::of_file(path, error);
    let length = file.metadata().map_err(of_path)?.len();
    let length = usize::try_from(length).unwrap_or(usize::MAX);
    if length > MOST {
        let words = format!("more than {MOST} bytes, which no book has");
        return Err(Failure::of_file(path, words));
    }
    let mut bytes = memory::bytes("book", (length + room).min(MOST))?;
    let used = fill(&mut file, &mut bytes.as_mut()[..length]).map_err(of_path)?;
    Ok(Book::new(bytes, used))
}
