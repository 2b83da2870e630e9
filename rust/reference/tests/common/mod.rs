//! What several tests share: the vectors file of the repository.

use lyra2_reference::vectors::{self, Case};

/// The place of the vectors file.
pub const FILE: &str = concat!(env!("CARGO_MANIFEST_DIR"), "/../../vectors/lyra2.txt");

/// The bytes of the vectors file.
pub fn file() -> Vec<u8> {
    std::fs::read(FILE).expect("the repository has its vectors file")
}

/// The cases of the vectors file, each with its line.
pub fn cases() -> Vec<(usize, Case)> {
    vectors::read(&file()).expect("the vectors file can be read")
}
