//! The checksum of an end-state file, FNV-1a with 64 bits as in the vectors file.

/// A checksum over the bytes added so far.
pub struct Checksum(u64);

impl Checksum {
    /// The checksum of no bytes.
    pub fn new() -> Checksum {
        Checksum(0xcbf2_9ce4_8422_2325)
    }

    /// Adds the eight bytes of a word.
    pub fn add(&mut self, bytes: [u8; 8]) {
        for byte in bytes {
            self.0 = (self.0 ^ u64::from(byte)).wrapping_mul(0x0000_0100_0000_01b3);
        }
    }

    /// The checksum of what was added.
    pub fn sum(&self) -> u64 {
        self.0
    }
}
