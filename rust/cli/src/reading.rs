//! Reading a bounded number of bytes, without leaving copies in buffers that are not wiped.

use crate::failure::Failure;
use crate::secret::{zeros, Secret};
use std::fs::{self, File};
use std::io::{self, ErrorKind, Read};
use std::os::fd::AsFd;
use std::os::unix::fs::MetadataExt;
use std::path::Path;

/// The bytes of a file, or the first ones if it has more than are asked for.
pub fn read_file(path: &Path, most: usize) -> Result<Secret, Failure> {
    let read = File::open(path).and_then(|mut file| read_bytes(&mut file, most));
    read.map_err(|error| Failure::of_file(path, error))
}

/// The bytes of standard input, or the first ones if it has more than are asked for.
pub fn read_standard_input(most: usize) -> Result<Secret, Failure> {
    let read = standard_input().and_then(|mut input| read_bytes(&mut input, most));
    read.map_err(|error| Failure::from_io("standard input", error))
}

/// A handle of its own for standard input: the one of std keeps what it reads in a buffer that nobody wipes.
fn standard_input() -> io::Result<File> {
    Ok(File::from(io::stdin().as_fd().try_clone_to_owned()?))
}

/// Whether two sources are the same file, as standard input and /dev/stdin are. A source without a path is standard
/// input.
pub fn are_same_file(sources: [Option<&Path>; 2]) -> Result<bool, Failure> {
    let identity = |source: Option<&Path>| {
        let found = match source {
            Some(path) => fs::metadata(path).map_err(|error| Failure::of_file(path, error)),
            None => standard_input()
                .and_then(|input| input.metadata())
                .map_err(|error| Failure::from_io("standard input", error)),
        };
        found.map(|found| (found.dev(), found.ino()))
    };
    let [one, other] = sources.map(identity);
    Ok(one? == other?)
}

/// Reads until the input ends, or so many bytes.
fn read_bytes(source: &mut impl Read, most: usize) -> io::Result<Secret> {
    let mut bytes = zeros(most);
    let used = fill(source, &mut bytes)?;
    bytes.truncate(used);
    Ok(bytes)
}

/// Reads until the input ends or the bytes are full; returns how many were read.
pub fn fill(source: &mut impl Read, bytes: &mut [u8]) -> io::Result<usize> {
    let mut used = 0;
    while used < bytes.len() {
        match source.read(&mut bytes[used..]) {
            Ok(0) => break,
            Ok(count) => used += count,
            Err(error) if error.kind() == ErrorKind::Interrupted => (),
            Err(error) => return Err(error),
        }
    }
    Ok(used)
}

/// Leaves out the last byte if it is a newline.
pub fn leave_out_newline(text: &mut Secret) {
    if text.ends_with(b"\n") {
        text.pop();
    }
}
