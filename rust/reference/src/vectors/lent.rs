//! Lent buffers that know which of their places a call has changed.

/// The byte that a lent buffer of bytes holds beforehand; no two places next to each other hold the same.
fn fill_byte(place: usize) -> u8 {
    0xa5 ^ place as u8
}

/// The word that a lent matrix or record holds beforehand; no two places hold the same.
fn fill(place: usize) -> u64 {
    0xa5a5_a5a5_0000_0000 ^ place as u64
}

/// A lent buffer of bytes.
pub fn bytes(len: u64) -> Vec<u8> {
    (0..len as usize).map(fill_byte).collect()
}

/// A lent matrix or record.
pub fn words(count: u64) -> Vec<u64> {
    (0..count as usize).map(fill).collect()
}

/// Says whether a buffer of bytes was changed from some place on.
pub fn bytes_are_kept(name: &str, bytes: &[u8], from: usize) -> Result<(), String> {
    let mut rest = (from..).zip(&bytes[from..]);
    match rest.find(|&(place, &byte)| byte != fill_byte(place)) {
        Some((place, _)) => Err(format!("byte {place} of the {name} was changed")),
        None => Ok(()),
    }
}

/// Says whether a matrix or record was changed from some place on.
pub fn words_are_kept(name: &str, words: &[u64], from: usize) -> Result<(), String> {
    let mut rest = (from..).zip(&words[from..]);
    match rest.find(|&(place, &word)| word != fill(place)) {
        Some((place, _)) => Err(format!("word {place} of the {name} was changed")),
        None => Ok(()),
    }
}

/// The written part of an output, once the bytes after it are found unchanged.
pub fn written<'a>(name: &str, bytes: &'a [u8], count: u64) -> Result<&'a [u8], String> {
    let too_short = || format!("the {name} has no {count} bytes, yet the call was accepted");
    let count = usize::try_from(count).map_err(|_| too_short())?;
    let written = bytes.get(..count).ok_or_else(too_short)?;
    bytes_are_kept(name, bytes, count)?;
    Ok(written)
}

/// The used part of a matrix or record, once the words after it are found unchanged.
pub fn used<'a>(name: &str, words: &'a [u64], count: u64) -> Result<&'a [u64], String> {
    let too_short = || format!("the {name} has no {count} words, yet the call was accepted");
    let count = usize::try_from(count).map_err(|_| too_short())?;
    let used = words.get(..count).ok_or_else(too_short)?;
    words_are_kept(name, words, count)?;
    Ok(used)
}
