//! The end-state file, as docs/END-STATES.md describes it: words of 64 bits, the lowest byte first.

pub mod checksum;
pub mod compare;
pub mod read;
pub mod write;

use crate::mixer;
use lyra2::{
    Counts, Mixer, Parameters, Settings, COLUMNS, KEY_LENGTHS, ROTATIONS, ROUNDS, ROWS,
    STATE_WORDS, TIME_COSTS, USUAL_ROTATION, USUAL_ROUNDS,
};
use std::ops::RangeInclusive;

/// The first eight bytes.
const MAGIC: u64 = u64::from_le_bytes(*b"LYRA2END");
/// The name of the field that is told in words.
const MIXER: &str = "mixer";
/// The names of the header's fields, which follow the first bytes and the version.
const FIELDS: [&str; 10] = [
    "T",
    "R",
    "C",
    "rho",
    "omega",
    MIXER,
    "key length",
    "full calls",
    "reduced calls",
    "rounds",
];

/// The rho, omega and mixer of every file of version 1, which has no words for them.
const OF_VERSION_1: [u64; 3] = [
    USUAL_ROUNDS as u64,
    USUAL_ROTATION as u64,
    mixer::number(Mixer::Plain),
];

/// A form of the file. All of them are read.
#[derive(Clone, Copy)]
enum Version {
    One = 1,
    Two = 2,
    Three = 3,
}

impl Version {
    /// The one that is written.
    const WRITTEN: Version = Version::Three;

    fn of_number(number: u64) -> Result<Version, String> {
        match number {
            1 => Ok(Version::One),
            2 => Ok(Version::Two),
            3 => Ok(Version::Three),
            _ => Err(format!("version {number}; versions 1 to 3 are read")),
        }
    }

    /// Words before the state: the first bytes, the version and the fields.
    fn header_words(self) -> usize {
        match self {
            Version::One => 2 + FIELDS.len() - OF_VERSION_1.len(),
            Version::Two | Version::Three => 2 + FIELDS.len(),
        }
    }

    /// Whether a word of the record holds two numbers, and not one.
    fn is_packed(self) -> bool {
        match self {
            Version::One | Version::Two => false,
            Version::Three => true,
        }
    }
}

/// What stands before the state.
#[derive(Clone, Copy)]
pub struct Header {
    /// T, R, C, rho, omega and the mixer.
    pub settings: Settings,
    /// Bytes of the key.
    pub key_length: usize,
    /// What the derivation spent. Another program's counts may be wrong, and are then a difference.
    pub counts: Counts,
}

impl Header {
    /// The fields of any version, since files are compared by them.
    fn fields(&self) -> [u64; FIELDS.len()] {
        let Settings {
            parameters,
            rounds,
            rotation,
            mixer,
        } = self.settings;
        [
            parameters.time as u64,
            parameters.rows as u64,
            parameters.columns as u64,
            rounds as u64,
            rotation as u64,
            mixer::number(mixer),
            self.key_length as u64,
            self.counts.full,
            self.counts.reduced,
            self.counts.rounds,
        ]
    }

    /// A field as a comparison tells it.
    fn shown(&self, place: usize) -> String {
        match FIELDS[place] {
            MIXER => mixer::name(self.settings.mixer).to_string(),
            _ => self.fields()[place].to_string(),
        }
    }

    /// The header that some fields are, once their numbers are within the limits.
    fn from_fields(fields: [u64; FIELDS.len()]) -> Result<Header, String> {
        let [time, rows, columns, rho, omega, mixer, key_length, full, reduced, rounds] = fields;
        let parameters = Parameters {
            time: within("T", time, TIME_COSTS)?,
            rows: within("R", rows, ROWS)?,
            columns: within("C", columns, COLUMNS)?,
        };
        let settings = Settings {
            parameters,
            rounds: within("rho", rho, ROUNDS)?,
            rotation: within("omega", omega, ROTATIONS)?,
            mixer: mixer_of(mixer)?,
        };
        let counts = Counts {
            full,
            reduced,
            rounds,
        };
        Ok(Header {
            settings,
            key_length: within("the key length", key_length, KEY_LENGTHS)?,
            counts,
        })
    }

    /// Words of the used matrix. T, R and C are within their limits, so there is room for the number.
    fn matrix_words(&self) -> u64 {
        self.settings
            .parameters
            .matrix_words()
            .unwrap_or(usize::MAX) as u64
    }

    /// Pairs of numbers in the record: row0 and row1, or col0 and col1. Each is a word of the used one.
    fn record_pairs(&self) -> u64 {
        self.settings
            .parameters
            .record_words()
            .unwrap_or(usize::MAX) as u64
    }

    /// Bytes of the whole file that is written for it.
    pub fn file_bytes(&self) -> u64 {
        self.bytes_of(Version::WRITTEN)
    }

    /// Bytes of a whole file of this version: header, state, matrix, record and checksum.
    fn bytes_of(&self, version: Version) -> u64 {
        let fixed = (version.header_words() + STATE_WORDS + 1) as u64;
        let record = match version.is_packed() {
            true => self.record_pairs(),
            false => 2 * self.record_pairs(),
        };
        8 * (fixed + self.matrix_words() + record)
    }
}

fn within(name: &str, number: u64, limits: RangeInclusive<usize>) -> Result<usize, String> {
    let narrow = usize::try_from(number).ok();
    narrow
        .filter(|number| limits.contains(number))
        .ok_or_else(|| {
            let (low, high) = (limits.start(), limits.end());
            format!("{name} is {number} in its header; {low} to {high} is due")
        })
}

fn mixer_of(number: u64) -> Result<Mixer, String> {
    mixer::numbered(number).ok_or_else(|| {
        let due = mixer::ALL.map(|it| format!("{} for {}", mixer::number(it), mixer::name(it)));
        let due = due.join(" or ");
        format!("the mixer is {number} in its header; {due} is due")
    })
}
