//! Login lines: where one is read from, what it says, and the text of a new one.

use crate::failure::Failure;
use crate::reading::{leave_out_newline, read_file, read_standard_input};
use crate::secret::{wipe_stack, zeros, Secret};
use lyra2::{Parameters, Refusal, KEY_MAX, LINE_MAX, SALT_MAX};
use std::path::Path;

/// Bytes of a line that are read at most. Lines of any length can be of the form, and the library says what is wrong
/// with them; an input that does not end must not fill the memory.
const MOST: usize = 1 << 20;

/// What a line says.
pub struct Contents {
    /// The cost parameters.
    pub parameters: Parameters,
    /// The salt.
    pub salt: Secret,
    /// The key.
    pub key: Secret,
}

/// Reads a line, from standard input if no file is given. One last newline is left out.
pub fn read(file: Option<&Path>) -> Result<Contents, Failure> {
    // The newline, and one byte that is too many.
    let most = MOST + 2;
    let mut text = match file {
        Some(path) => read_file(path, most)?,
        None => read_standard_input(most)?,
    };
    leave_out_newline(&mut text);
    if text.len() > MOST {
        let words = format!("more than {MOST} bytes; a login line has at most {LINE_MAX}");
        return Err(match file {
            Some(path) => Failure::of_file(path, words),
            None => Failure::Trouble(format!("standard input: {words}")),
        });
    }
    Ok(contents(&text)?)
}

fn contents(text: &[u8]) -> Result<Contents, Refusal> {
    let (mut salt, mut key) = (zeros(SALT_MAX), zeros(KEY_MAX));
    let read = lyra2::read_line(text, &mut salt, &mut key);
    wipe_stack();
    let line = read?;
    let (parameters, salt_length, key_length) = (line.parameters, line.salt.len(), line.key.len());
    salt.truncate(salt_length);
    key.truncate(key_length);
    Ok(Contents {
        parameters,
        salt,
        key,
    })
}

/// The line and a newline.
pub fn write(parameters: Parameters, salt: &[u8], key: &[u8]) -> Result<Secret, Refusal> {
    let mut text = zeros(LINE_MAX + 1);
    let written = lyra2::write_line(parameters, salt, key, &mut text[..LINE_MAX]);
    wipe_stack();
    let length = written?;
    text[length] = b'\n';
    text.truncate(length + 1);
    Ok(text)
}
