//! Paragraphs of the help that several commands share.

/// Where the password comes from.
pub const PASSWORD: &str = "Without --password-file the password, at most 1024 bytes, is standard input up to its end, \
without its last newline if there is one: exactly one is left out. At a terminal it is a line of text, and what is typed is \
not shown.";

/// That a password is typed twice.
pub const TYPED_TWICE: &str = "A typed password is asked for twice.";

/// That a key goes with its rounds, rotation and mixer.
pub const SETTINGS: &str =
    "A key goes with the rounds, the rotation and the mixer that it was made with, and does not show them: \
`lyra2 check` has to be given those of `lyra2 derive`.";

/// What --lanes does.
pub const LANES: &str =
    "With --lanes the key is that of P sponges, which share the rows, read each other's and run in turn; docs/LANES.md \
describes it. The rounds, the rotation and the mixer are then the usual ones and not given. Such a key does not show its lanes \
either; a login line, a book and an end-state file have none.";

/// A line made and used.
pub const LINE_EXAMPLE: &str = "Example, in which a password is typed twice and then once:\n    \
lyra2 line --time 1 --rows 1024 --columns 64 --key-length 32 --output line\n    \
lyra2 login --line-file line";

/// Accounts made and used.
pub const BOOK_EXAMPLE: &str = "Example, in which a password is typed twice and then once:\n    \
lyra2 book add --book book --number 7 --time 1 --rows 1024 --columns 64 --key-length 32\n    \
lyra2 book check --book book --number 7\n    \
lyra2 book list --book book";

/// How the file of a book is changed.
pub const BOOK_CHANGE: &str =
    "The new book is written beside FILE and takes its name once it is whole, so that FILE is always the old book or the \
new one; it keeps its owner, group and mode. One program changes it at a time, and others wait. No link is \
replaced: name the file that it leads to.";

/// The exit status of the commands that do not answer yes or no.
pub const STATUS: &str =
    "Exit status: 0 for a result, 2 for a refusal or anything that went wrong.";

/// The exit status of the commands that do.
pub const YES_OR_NO_STATUS: &str =
    "Exit status: 0 for yes, 1 for no, 2 for a refusal or anything that went wrong.";

/// The paragraphs with a blank line between them.
pub fn paragraphs(all: &[&str]) -> String {
    all.join("\n\n")
}
