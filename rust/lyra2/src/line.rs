//! Login lines: T, R, C, salt and key as one line of text, `$lyra2$t=1,r=3,c=1$SALT$KEY`.

use crate::parameters::{Parameters, KEY_LENGTHS, SALT_LENGTHS};
use crate::refusal::Refusal;
use std::fmt;

/// Bytes of the longest line within the limits. An output of so many is never too short to write one.
pub const LINE_MAX: usize = 1480;
/// Bytes of the longest salt. An output of so many is never too short for the salt of a line.
pub const SALT_MAX: usize = *SALT_LENGTHS.end();
/// Bytes of the longest key. An output of so many is never too short for the key of a line.
pub const KEY_MAX: usize = *KEY_LENGTHS.end();

/// What a line says. Salt and key are the written parts of the lent outputs, so that no byte beside them can be taken
/// for theirs.
#[derive(Clone, Copy)]
pub struct Line<'a> {
    /// The cost parameters.
    pub parameters: Parameters,
    /// The salt.
    pub salt: &'a [u8],
    /// The key.
    pub key: &'a [u8],
}

/// The key is left out: what is printed for a look ends up in logs.
impl fmt::Debug for Line<'_> {
    fn fmt(&self, f: &mut fmt::Formatter<'_>) -> fmt::Result {
        f.debug_struct("Line")
            .field("parameters", &self.parameters)
            .field("salt", &self.salt)
            .field("key_length", &self.key.len())
            .finish()
    }
}

/// Reads a line, which has no newline at its end. Salt and key are written at the start of the two outputs, whose
/// remaining bytes keep their contents.
///
/// Refusals, in the order of the checks: 11, 1, 3, 10, 4, 5, 6, 12.
///
/// ```
/// use lyra2::{read_line, Refusal, KEY_MAX, SALT_MAX};
///
/// let (mut salt, mut key) = ([0; SALT_MAX], [0; KEY_MAX]);
/// let line = read_line(b"$lyra2$t=1,r=3,c=1$c2FsdHNhbHQ$AQID", &mut salt, &mut key)?;
/// assert_eq!((line.parameters.rows, line.salt, line.key), (3, &b"saltsalt"[..], &[1, 2, 3][..]));
///
/// let refused = read_line(b"$lyra2$t=1,r=3,c=1$c2FsdHNhbHQ$AQID\n", &mut salt, &mut key);
/// assert_eq!(refused.unwrap_err(), Refusal::LineForm);
/// # Ok::<(), Refusal>(())
/// ```
pub fn read_line<'a>(
    line: &[u8],
    salt: &'a mut [u8],
    key: &'a mut [u8],
) -> Result<Line<'a>, Refusal> {
    let mut values = [0; 5];
    let number = lyra2_sys::line_read(line, salt, key, &mut values);
    Refusal::accepted(number)?;
    let [time, rows, columns, salt_length, key_length] = values;
    Ok(Line {
        parameters: Parameters {
            time,
            rows,
            columns,
        },
        salt: &salt[..salt_length],
        key: &key[..key_length],
    })
}

/// Writes a line at the start of the output, whose remaining bytes keep their contents, and returns its length. There
/// is no newline behind it.
///
/// A line goes with the usual rounds, rotation and mixer and has no place for others, so it takes [`Parameters`] and no
/// [`Settings`](crate::Settings). What the key was made with is not asked: one that was derived with other settings gives
/// a line too, but a check by that line holds the usual key against it, and says no.
///
/// Refusals, in the order of the checks: 1, 3, 10, 4, 5, 6, 12.
///
/// ```
/// use lyra2::{write_line, Parameters, LINE_MAX};
///
/// let mut text = [0; LINE_MAX];
/// let parameters = Parameters { time: 1, rows: 3, columns: 1 };
/// let length = write_line(parameters, b"saltsalt", &[1, 2, 3], &mut text)?;
/// assert_eq!(&text[..length], b"$lyra2$t=1,r=3,c=1$c2FsdHNhbHQ$AQID");
/// # Ok::<(), lyra2::Refusal>(())
/// ```
pub fn write_line(
    parameters: Parameters,
    salt: &[u8],
    key: &[u8],
    line: &mut [u8],
) -> Result<usize, Refusal> {
    let parts = lyra2_sys::LineParts {
        time: parameters.time,
        rows: parameters.rows,
        columns: parameters.columns,
        salt,
        key,
    };
    let mut length = 0;
    let number = lyra2_sys::line_write(parts, line, &mut length);
    Refusal::accepted(number)?;
    Ok(length)
}
