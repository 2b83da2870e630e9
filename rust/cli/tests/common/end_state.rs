//! A second reader and writer of end-state files, made from docs/END-STATES.md.

use lyra2_reference::vectors::checksum;
use lyra2_reference::{record, Mixer};

/// The parts of an end-state file.
#[derive(Clone, Debug, PartialEq, Eq)]
pub struct EndState {
    pub t: u64,
    pub r: u64,
    pub c: u64,
    pub rho: u64,
    pub omega: u64,
    pub mixer: u64,
    pub key_length: u64,
    /// Full calls, reduced calls, rounds.
    pub counts: [u64; 3],
    pub state: Vec<u64>,
    pub matrix: Vec<u64>,
    /// row0, row1, then col0 and col1 for each column, of each visit, in whatever form a file has them.
    pub record: Vec<u64>,
}

impl EndState {
    /// The parts of a file of version 3 that has to be in order.
    pub fn read(file: &[u8]) -> EndState {
        let (body, sum) = file.split_at(file.len() - 8);
        assert_eq!(&body[..8], b"LYRA2END");
        assert_eq!(sum, checksum::of_bytes(body.iter().copied()).to_le_bytes());
        let mut words = body[8..]
            .chunks(8)
            .map(|bytes| u64::from_le_bytes(bytes.try_into().expect("whole words")));
        let mut take = |count: u64| -> Vec<u64> {
            let part: Vec<u64> = words.by_ref().take(count as usize).collect();
            assert_eq!(part.len() as u64, count, "the file is too short");
            part
        };
        let header = take(11);
        let [3, t, r, c, rho, omega, mixer, key_length, full, reduced, rounds] = header[..] else {
            panic!("version 3 is due: {header:?}");
        };
        let end_state = EndState {
            t,
            r,
            c,
            rho,
            omega,
            mixer,
            key_length,
            counts: [full, reduced, rounds],
            state: take(16),
            matrix: take(12 * r * c),
            record: unpacked(&take(r * t * (1 + c))),
        };
        assert_eq!(words.next(), None, "the file is too long");
        end_state
    }

    /// The file of version 3, with a checksum that fits.
    pub fn write(&self) -> Vec<u8> {
        self.write_version(3)
    }

    /// The file of any version.
    pub fn write_version(&self, version: u64) -> Vec<u8> {
        let settings = [self.rho, self.omega, self.mixer];
        let settings = match version {
            1 => {
                assert_eq!(settings, [1, 2, 0], "version 1 has no place for others");
                &[]
            }
            _ => &settings[..],
        };
        let record = match version {
            1 | 2 => self.record.clone(),
            _ => self.packed_record(),
        };
        let parts = [
            &[version, self.t, self.r, self.c],
            settings,
            &[self.key_length],
            &self.counts,
            &self.state,
            &self.matrix,
            &record,
        ];
        let words = parts.concat().into_iter().flat_map(u64::to_le_bytes);
        summed(b"LYRA2END".iter().copied().chain(words).collect())
    }

    /// The record with two numbers in a word.
    pub fn packed_record(&self) -> Vec<u64> {
        let words = self.record.chunks_exact(2).map(|pair| {
            let word = record::word([pair[0], pair[1]]);
            assert_eq!(record::numbers(word), pair, "no word holds the two");
            word
        });
        words.collect()
    }
}

/// The numbers of a record that has two in a word.
pub fn unpacked(words: &[u64]) -> Vec<u64> {
    words.iter().copied().flat_map(record::numbers).collect()
}

/// The number of a mixer.
pub fn mixer_number(mixer: Mixer) -> u64 {
    match mixer {
        Mixer::Plain => 0,
        Mixer::BlaMka => 1,
    }
}

/// The bytes and their checksum.
pub fn summed(mut bytes: Vec<u8>) -> Vec<u8> {
    let sum = checksum::of_bytes(bytes.iter().copied());
    bytes.extend(sum.to_le_bytes());
    bytes
}
