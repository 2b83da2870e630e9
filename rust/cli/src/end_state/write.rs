//! Writing an end-state file.

use super::checksum::Checksum;
use super::{Header, Version, MAGIC};
use std::io::{self, BufWriter, Write};

/// Writes the file and returns its checksum.
pub fn write(
    file: impl Write,
    header: &Header,
    state: &[u64],
    matrix: &[u64],
    record: &[u64],
) -> io::Result<u64> {
    let mut file = BufWriter::new(file);
    let mut sum = Checksum::new();
    let start = [MAGIC, Version::WRITTEN as u64];
    for part in [&start, &header.fields()[..], state, matrix, record] {
        for word in part {
            let bytes = word.to_le_bytes();
            sum.add(bytes);
            file.write_all(&bytes)?;
        }
    }
    file.write_all(&sum.sum().to_le_bytes())?;
    file.flush()?;
    Ok(sum.sum())
}
