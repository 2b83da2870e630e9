//! The login line of request #105: `$lyra2$t=1,r=3,c=1$`, the salt, `$` and the key, both in base 64.

use crate::base64::{decode, encode};
use crate::input::Parameters;
use crate::refusal::{self, Refusal};

/// What a line is written from.
#[derive(Clone, Copy, Debug)]
pub struct LineParts<'a> {
    /// The time cost T.
    pub t: u64,
    /// The number of rows R.
    pub r: u64,
    /// The number of columns C.
    pub c: u64,
    /// The salt.
    pub salt: &'a [u8],
    /// The key.
    pub key: &'a [u8],
}

/// What reading a line returns beside the lent outputs.
#[derive(Clone, Copy, Debug, PartialEq, Eq)]
pub struct LineValues {
    /// The time cost T.
    pub t: u64,
    /// The number of rows R.
    pub r: u64,
    /// The number of columns C.
    pub c: u64,
    /// Length of the salt in bytes.
    pub salt_len: u64,
    /// Length of the key in bytes.
    pub key_len: u64,
}

/// The values of a line that is of the form, whether or not they are within their limits.
struct Read {
    t: u64,
    r: u64,
    c: u64,
    salt: Vec<u8>,
    key: Vec<u8>,
}

/// Reads a line: puts its salt and its key at the start of the two outputs.
pub fn line_read(line: &[u8], salt: &mut [u8], key: &mut [u8]) -> Result<LineValues, Refusal> {
    let read = read_form(line).ok_or(Refusal::LineForm)?;
    refusal::check_parameters(&parameters(read.t, read.r, read.c, &read.salt, &read.key))?;
    let enough = salt.len() >= read.salt.len() && key.len() >= read.key.len();
    refusal::check_outputs(enough)?;
    salt[..read.salt.len()].copy_from_slice(&read.salt);
    key[..read.key.len()].copy_from_slice(&read.key);
    Ok(LineValues {
        t: read.t,
        r: read.r,
        c: read.c,
        salt_len: read.salt.len() as u64,
        key_len: read.key.len() as u64,
    })
}

/// Writes a line at the start of the output and returns its length.
pub fn line_write(parts: &LineParts, output: &mut [u8]) -> Result<u64, Refusal> {
    let LineParts { t, r, c, salt, key } = *parts;
    refusal::check_parameters(&parameters(t, r, c, salt, key))?;
    let start = format!("$lyra2$t={t},r={r},c={c}$").into_bytes();
    let line = [start, encode(salt), b"$".to_vec(), encode(key)].concat();
    refusal::check_outputs(output.len() >= line.len())?;
    output[..line.len()].copy_from_slice(&line);
    Ok(line.len() as u64)
}

/// The numbers that have limits. A line has no password; an empty one is within its limits and is never refused.
fn parameters(t: u64, r: u64, c: u64, salt: &[u8], key: &[u8]) -> Parameters {
    Parameters {
        key_len: key.len() as u64,
        password_len: 0,
        salt_len: salt.len() as u64,
        t,
        r,
        c,
    }
}

/// Reads a line that is of the form. Neither a number nor base 64 has a `$` or a comma, so the line is of the form only
/// if cutting it at every one of them gives its parts.
fn read_form(line: &[u8]) -> Option<Read> {
    let parts: Vec<&[u8]> = line.split(|&byte| byte == b'$').collect();
    let [b"", b"lyra2", numbers, salt, key] = parts[..] else {
        return None;
    };
    let numbers: Vec<&[u8]> = numbers.split(|&byte| byte == b',').collect();
    let [t, r, c] = numbers[..] else {
        return None;
    };
    Some(Read {
        t: read_number(t.strip_prefix(b"t=")?)?,
        r: read_number(r.strip_prefix(b"r=")?)?,
        c: read_number(c.strip_prefix(b"c=")?)?,
        salt: decode(salt)?,
        key: decode(key)?,
    })
}

/// Reads a decimal number without leading zeros. One of more than 64 bits becomes the largest of 64 bits, which is above
/// every limit as well.
fn read_number(digits: &[u8]) -> Option<u64> {
    let is_number = !digits.is_empty() && digits.iter().all(u8::is_ascii_digit);
    let leading_zero = digits.len() > 1 && digits[0] == b'0';
    if !is_number || leading_zero {
        return None;
    }
    let next = |value: u64, digit: &u8| {
        let tens = value.saturating_mul(10);
        tens.saturating_add(u64::from(digit - b'0'))
    };
    Some(digits.iter().fold(0, next))
}
