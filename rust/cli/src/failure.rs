//! Why a command has no result, in one line.

use lyra2::{Refusal, TIME_COSTS};
use std::fmt;
use std::io;
use std::ops::RangeInclusive;
use std::path::Path;

/// Why a command has no result.
pub enum Failure {
    /// The library refused the call; the words say what it asks for.
    Refused(Refusal, String),
    /// The command was asked wrongly, or a file or the memory failed it; the words say what and where.
    Trouble(String),
}

impl Failure {
    /// A failure of the command line itself.
    pub fn usage(words: impl Into<String>) -> Failure {
        Failure::Trouble(words.into())
    }

    /// A failure to read or write at a place.
    pub fn from_io(place: &str, error: io::Error) -> Failure {
        Failure::Trouble(format!("{place}: {error}"))
    }

    /// Words about a file, whose name is written so that it keeps to one line.
    pub fn of_file(path: &Path, words: impl fmt::Display) -> Failure {
        Failure::Trouble(format!("{path:?}: {words}"))
    }
}

/// The refusal of a command without lanes, so that T has no second limit.
impl From<Refusal> for Failure {
    fn from(refusal: Refusal) -> Failure {
        let words = match refusal {
            Refusal::TimeCost => limits("the time cost T must be", TIME_COSTS),
            other => other.to_string(),
        };
        Failure::Refused(refusal, words)
    }
}

/// A sentence that ends with both limits.
pub fn limits(start: &str, limits: RangeInclusive<usize>) -> String {
    format!("{start} {} to {}", limits.start(), limits.end())
}

impl fmt::Display for Failure {
    fn fmt(&self, f: &mut fmt::Formatter<'_>) -> fmt::Result {
        match self {
            Failure::Refused(refusal, words) => write!(f, "refused {}: {words}", refusal.number()),
            Failure::Trouble(words) => f.write_str(words),
        }
    }
}
