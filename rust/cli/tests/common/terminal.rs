//! The program at a terminal of its own, which `script` makes.

use super::FOLDER;
use std::io::{Read, Write};
use std::process::{Child, Command, ExitStatus, Stdio};
use std::sync::{Arc, Mutex};
use std::thread::JoinHandle;
use std::time::{Duration, Instant};

/// How long a text may take to be shown.
const PATIENCE: Duration = Duration::from_secs(60);

/// A terminal with a shell command that runs in it.
pub struct Terminal {
    script: Child,
    shown: Arc<Mutex<Vec<u8>>>,
    reading: Option<JoinHandle<()>>,
}

impl Terminal {
    /// Starts a shell command, in which `lyra2` is the program. What it writes to the descriptor 3 goes to `other`.
    pub fn start(command: &str, other: Stdio) -> Terminal {
        let program = env!("CARGO_BIN_EXE_lyra2");
        let in_terminal = format!("lyra2() {{ '{program}' \"$@\"; }}; {command}");
        let mut script = Command::new("sh")
            .args(["-c", "exec script -qec \"$0\" /dev/null 3>&1 1>&2"])
            .arg(in_terminal)
            .env("SHELL", "/bin/sh")
            .current_dir(FOLDER)
            .stdin(Stdio::piped())
            .stdout(other)
            .stderr(Stdio::piped())
            .spawn()
            .expect("script, of Debian's package bsdutils");
        let mut output = script.stderr.take().expect("a pipe");
        let shown = Arc::new(Mutex::new(Vec::new()));
        let kept = shown.clone();
        let reading = std::thread::spawn(move || {
            let mut some = [0; 4096];
            while let Ok(count @ 1..) = output.read(&mut some) {
                kept.lock().expect("no panic").extend(&some[..count]);
            }
        });
        Terminal {
            script,
            shown,
            reading: Some(reading),
        }
    }

    /// What was shown so far.
    pub fn shown(&self) -> String {
        String::from_utf8_lossy(&self.shown.lock().expect("no panic")).into_owned()
    }

    /// Waits until a text is shown.
    #[track_caller]
    pub fn wait_for(&self, text: &str) {
        self.wait_until(&format!("{text:?} shown"), || self.shown().contains(text));
    }

    /// Waits until something is so, which is named for the failure that else follows.
    #[track_caller]
    pub fn wait_until(&self, what: &str, is_so: impl Fn() -> bool) {
        let began = Instant::now();
        while !is_so() {
            let waits = began.elapsed() < PATIENCE;
            assert!(waits, "never {what}; shown is {:?}", self.shown());
            std::thread::sleep(Duration::from_millis(20));
        }
    }

    pub fn type_in(&mut self, text: &[u8]) {
        let input = self.script.stdin.as_mut().expect("a pipe");
        input.write_all(text).expect("a terminal that reads");
        input.flush().expect("a terminal that reads");
    }

    /// Waits for the command's end. What was shown has no carriage returns any more.
    pub fn end(mut self) -> (ExitStatus, String) {
        let status = self.script.wait().expect("the terminal ends");
        let reading = self.reading.take().expect("not ended yet");
        reading.join().expect("no panic");
        (status, self.shown().replace('\r', ""))
    }
}

impl Drop for Terminal {
    /// The end of its input hangs the terminal up, and so ends what runs in it.
    fn drop(&mut self) {
        let _ = self.script.kill();
        let _ = self.script.wait();
    }
}
