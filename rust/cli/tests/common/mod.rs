//! Running the program, and files for it to read.
#![allow(dead_code)]

pub mod book;
pub mod end_state;
pub mod folder;
pub mod line;
pub mod system_calls;
pub mod terminal;

use std::io::Write;
use std::path::PathBuf;
use std::process::{Command, Output, Stdio};
use std::sync::atomic::{AtomicU64, Ordering};

/// What a run of the program came to.
#[derive(Debug, PartialEq, Eq)]
pub struct Run {
    pub status: Option<i32>,
    pub output: String,
    pub error: String,
}

/// The folder that the program runs in, so that the names of its files are short and have no spaces.
const FOLDER: &str = env!("CARGO_TARGET_TMPDIR");

pub fn command() -> Command {
    let mut command = Command::new(env!("CARGO_BIN_EXE_lyra2"));
    command.current_dir(FOLDER);
    command
}

/// The program with little memory to be had, in units of 1024 bytes.
pub fn limited(memory: u32, arguments: &str) -> Command {
    let mut command = Command::new("sh");
    let script = format!("ulimit -v {memory} && exec \"$0\" {arguments}");
    command
        .args(["-c", &script, env!("CARGO_BIN_EXE_lyra2")])
        .current_dir(FOLDER);
    command
}

/// Runs the program with these arguments and this standard input.
pub fn lyra2<A: AsRef<std::ffi::OsStr>>(arguments: &[A], input: &[u8]) -> Run {
    let mut child = command()
        .args(arguments)
        .stdin(Stdio::piped())
        .stdout(Stdio::piped())
        .stderr(Stdio::piped())
        .spawn()
        .expect("the program starts");
    // A program that is asked wrongly ends without a look at its input.
    let _ = child.stdin.take().expect("a pipe").write_all(input);
    Run::of(child.wait_with_output().expect("the program ends"))
}

impl Run {
    /// What a process came to that has ended.
    pub fn of(ended: Output) -> Run {
        Run {
            status: ended.status.code(),
            output: String::from_utf8(ended.stdout).expect("text"),
            error: String::from_utf8(ended.stderr).expect("text"),
        }
    }

    /// The output of a run that has a result.
    #[track_caller]
    pub fn result(self) -> String {
        assert_eq!(
            (self.status, self.error.as_str()),
            (Some(0), ""),
            "{self:?}"
        );
        self.output
    }

    /// The line of a run that failed: one line on standard error, nothing on standard output, status 2.
    #[track_caller]
    pub fn failure(self) -> String {
        assert_eq!(
            (self.status, self.output.as_str()),
            (Some(2), ""),
            "{self:?}"
        );
        let line = self.error.strip_suffix('\n').expect("a whole line");
        assert!(!line.is_empty() && !line.contains('\n'), "{self:?}");
        assert!(line.starts_with("lyra2"), "{self:?}");
        line.to_string()
    }
}

/// A file of this test's own in the program's folder, removed when dropped.
pub struct TemporaryFile {
    name: String,
}

impl TemporaryFile {
    /// A name that no file has yet.
    pub fn new() -> TemporaryFile {
        static COUNT: AtomicU64 = AtomicU64::new(0);
        let count = COUNT.fetch_add(1, Ordering::Relaxed);
        let name = format!("lyra2-{}-{count}", std::process::id());
        TemporaryFile { name }
    }

    pub fn holding(bytes: &[u8]) -> TemporaryFile {
        let file = TemporaryFile::new();
        std::fs::write(file.path(), bytes).expect("the target folder can be written");
        file
    }

    /// Its name in the program's folder.
    pub fn name(&self) -> &str {
        &self.name
    }

    pub fn path(&self) -> PathBuf {
        PathBuf::from(FOLDER).join(&self.name)
    }

    pub fn bytes(&self) -> Vec<u8> {
        std::fs::read(self.path()).expect("the file is there")
    }
}

impl Drop for TemporaryFile {
    fn drop(&mut self) {
        let _ = std::fs::remove_file(self.path());
    }
}

pub fn hex(bytes: &[u8]) -> String {
    bytes.iter().map(|byte| format!("{byte:02x}")).collect()
}

/// The arguments in a line, cut at spaces.
pub fn words(line: &str) -> Vec<&str> {
    line.split_whitespace().collect()
}
