//! Memory to lend to the library.

use crate::failure::Failure;
use lyra2::{Memory, NoMemory, Parameters};

/// A matrix for these parameters.
pub fn matrix(parameters: Parameters) -> Result<Memory, Failure> {
    named("matrix", parameters.matrix())
}

/// Requires that there is memory for a matrix, of which no page is fetched.
pub fn require_matrix(parameters: Parameters) -> Result<(), Failure> {
    let mut room: Vec<u64> = Vec::new();
    let words = parameters.matrix_words();
    if words.is_none_or(|words| room.try_reserve_exact(words).is_err()) {
        return Err(missing(
            "matrix",
            words.and_then(|words| words.checked_mul(8)),
        ));
    }
    // Not given back while the program runs, for the allocator would wipe it, and so fetch it all.
    std::mem::forget(room);
    Ok(())
}

/// A record for these parameters.
pub fn record(parameters: Parameters) -> Result<Memory, Failure> {
    named("record", parameters.record())
}

/// Bytes that may hold keys: locked and kept from core dumps as far as the system grants it, and wiped when dropped.
pub struct Bytes {
    words: Memory,
    count: usize,
}

impl AsRef<[u8]> for Bytes {
    fn as_ref(&self) -> &[u8] {
        &self.words.bytes()[..self.count]
    }
}

impl AsMut<[u8]> for Bytes {
    fn as_mut(&mut self) -> &mut [u8] {
        &mut self.words.bytes_mut()[..self.count]
    }
}

/// So many zeros.
pub fn bytes(what: &str, count: usize) -> Result<Bytes, Failure> {
    let words = Memory::zeros(count.div_ceil(size_of::<u64>()));
    let words = words.map_err(|_| missing(what, Some(count)))?;
    Ok(Bytes { words, count })
}

/// If the memory is not there the failure says what it was for.
fn named(what: &str, memory: Result<Memory, NoMemory>) -> Result<Memory, Failure> {
    memory.map_err(|no| missing(what, no.bytes))
}

fn missing(what: &str, bytes: Option<usize>) -> Failure {
    let bytes = bytes.map_or("too many".to_string(), |bytes| bytes.to_string());
    Failure::Trouble(format!("no memory for the {what} of {bytes} bytes"))
}
