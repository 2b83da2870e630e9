//! What a command comes to: the text for standard output and the exit status.

use crate::secret::Secret;

/// The exit status of a result.
const RESULT: u8 = 0;
/// The exit status of the answer no, and of end states that differ.
const NO: u8 = 1;
/// The exit status of a refusal, and of everything that went wrong.
pub const FAILED: u8 = 2;

/// A command's answer. The text may hold a key, so it is wiped when printed.
pub struct Outcome {
    /// The bytes for standard output.
    pub text: Secret,
    /// The exit status.
    pub status: u8,
}

impl Outcome {
    /// A result.
    pub fn result(text: impl Into<Vec<u8>>) -> Outcome {
        Outcome::secret(Secret::new(text.into()))
    }

    /// A result that is a secret already.
    pub fn secret(text: Secret) -> Outcome {
        Outcome {
            text,
            status: RESULT,
        }
    }

    /// The answer yes or no, in words.
    pub fn yes_or_no(yes: bool) -> Outcome {
        Outcome::answer(yes, if yes { "yes\n" } else { "no\n" })
    }

    /// The answer to a question of yes or no.
    pub fn answer(yes: bool, text: impl Into<Vec<u8>>) -> Outcome {
        Outcome {
            status: if yes { RESULT } else { NO },
            ..Outcome::result(text)
        }
    }
}
