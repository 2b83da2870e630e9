//! The terminal while a password is typed.

use crate::failure::Failure;
use rustix::termios::{tcgetattr, tcsetattr, OptionalActions, Termios, ECHO, ECHONL};
use std::fs::File;
use std::io::{self, Write};
use std::process::exit;

/// The exit status of a program that was interrupted, as shells give it.
const INTERRUPTED: i32 = 130;

/// The terminal, of what is typed showing the ends of the lines alone. Dropped, it has its settings from before again.
pub struct Hidden {
    terminal: File,
    settings: Termios,
}

impl Hidden {
    /// From now on an interrupt from the keyboard puts the terminal's settings back to what they are now, and ends the
    /// program: the settings outlive it.
    pub fn new() -> Result<Hidden, Failure> {
        let failure = |error| Failure::from_io("terminal", error);
        let terminal = File::options().read(true).write(true).open("/dev/tty");
        let terminal = terminal.map_err(failure)?;
        let settings = tcgetattr(&terminal).map_err(|error| failure(error.into()))?;
        let interrupted = terminal.try_clone().map_err(failure)?;
        let restore = move || {
            let _ = set(&interrupted, &settings);
            exit(INTERRUPTED)
        };
        ctrlc::set_handler(restore)
            .map_err(|error| Failure::Trouble(format!("terminal: {error}")))?;
        let mut hiding = settings;
        hiding.c_lflag &= !ECHO;
        hiding.c_lflag |= ECHONL;
        set(&terminal, &hiding).map_err(failure)?;
        Ok(Hidden { terminal, settings })
    }

    /// A line that is typed after this prompt.
    pub fn ask(&mut self, prompt: &str) -> io::Result<String> {
        self.terminal.write_all(prompt.as_bytes())?;
        rpassword::read_password()
    }
}

impl Drop for Hidden {
    fn drop(&mut self) {
        let _ = set(&self.terminal, &self.settings);
    }
}

fn set(terminal: &File, settings: &Termios) -> io::Result<()> {
    Ok(tcsetattr(terminal, OptionalActions::Now, settings)?)
}
