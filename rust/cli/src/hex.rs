//! Bytes in hexadecimal: written in lower case, read in either.

use crate::failure::Failure;
use crate::secret::{zeros, Secret};

const DIGITS: &[u8; 16] = b"0123456789abcdef";

/// The bytes and a newline.
pub fn line(bytes: &[u8]) -> Secret {
    let mut text = zeros(2 * bytes.len() + 1);
    for (pair, byte) in text.chunks_exact_mut(2).zip(bytes) {
        pair[0] = DIGITS[usize::from(byte >> 4)];
        pair[1] = DIGITS[usize::from(byte & 15)];
    }
    if let Some(last) = text.last_mut() {
        *last = b'\n';
    }
    text
}

/// The bytes that a text stands for. The words of a failure leave out the text, which may be a key.
pub fn decode(place: &str, text: &[u8]) -> Result<Secret, Failure> {
    let failure = |words: String| Failure::Trouble(format!("{place}: {words}"));
    if let Some(wrong) = text.iter().position(|digit| !digit.is_ascii_hexdigit()) {
        let words = format!("character {} is not a hexadecimal digit", wrong + 1);
        return Err(failure(words));
    }
    if !text.len().is_multiple_of(2) {
        let count = text.len();
        let words = format!("an odd number of hexadecimal digits, {count}; a byte has two");
        return Err(failure(words));
    }
    let mut bytes = zeros(text.len() / 2);
    for (byte, pair) in bytes.iter_mut().zip(text.chunks_exact(2)) {
        *byte = value(pair[0]) << 4 | value(pair[1]);
    }
    Ok(bytes)
}

/// The value of a hexadecimal digit.
fn value(digit: u8) -> u8 {
    match digit {
        b'0'..=b'9' => digit - b'0',
        _ => (digit | 0x20) - b'a' + 10,
    }
}
