//! Bytes from the system's random source.

use crate::failure::Failure;
use crate::secret::{zeros, Secret};
use rustix::rand::{getrandom, GetRandomFlags};
use std::io::{self, Read};

/// The system's source. Unlike /dev/urandom it waits, just after a start of the machine, until its bytes are random.
struct Source;

impl Read for Source {
    fn read(&mut self, bytes: &mut [u8]) -> io::Result<usize> {
        Ok(getrandom(bytes, GetRandomFlags::empty())?)
    }
}

/// So many random bytes, all of them or a failure.
pub fn bytes(count: usize) -> Result<Secret, Failure> {
    let mut bytes = zeros(count);
    match Source.read_exact(&mut bytes) {
        Ok(()) => Ok(bytes),
        Err(error) => Err(Failure::from_io("random source", error)),
    }
}
