//! How far work is, shown on standard error if that is a terminal, and gone when the work is done.

use indicatif::{FormattedDuration, ProgressBar, ProgressFinish, ProgressStyle};
use std::io::{self, IsTerminal};
use std::sync::mpsc::{channel, Receiver, RecvTimeoutError};
use std::thread;
use std::time::Duration;

/// Work that is expected to take less time is not shown.
const SHOWN_SECONDS: f64 = 1.0;
/// Files of fewer bytes are not shown.
const SHOWN_BYTES: u64 = 64 << 20;
/// The time between two looks at the clock.
const TICK: Duration = Duration::from_millis(100);

/// Does work that tells nothing on its way, and shows how much of the expected seconds has passed. They are asked for
/// only if there is somebody to show them to.
pub fn by_time<A>(
    what: &'static str,
    expected_seconds: impl FnOnce() -> Option<f64>,
    work: impl FnOnce() -> A,
) -> A {
    let is_watched = io::stderr().is_terminal();
    let seconds = is_watched.then(expected_seconds).flatten();
    let Some(seconds) = seconds.filter(|seconds| *seconds > SHOWN_SECONDS) else {
        return work();
    };
    let expected = Duration::from_secs_f64(seconds);
    let words = format!(
        "{{elapsed_precise}} of about {}",
        FormattedDuration(expected)
    );
    let bar = bar(what, expected.as_millis() as u64, &words);
    let (working, done) = channel();
    thread::scope(|scope| {
        scope.spawn(|| follow_clock(bar, done));
        let answer = work();
        drop(working);
        answer
    })
}

/// Moves the bar until the other end of the channel is gone. A bar that is full before that stays full.
fn follow_clock(bar: ProgressBar, done: Receiver<()>) {
    while done.recv_timeout(TICK) == Err(RecvTimeoutError::Timeout) {
        let passed = bar.elapsed().as_millis() as u64;
        bar.set_position(passed.min(bar.length().unwrap_or(0)));
    }
}

/// A bar for so many bytes to be read or written, through what it wraps.
pub fn by_bytes(what: &'static str, total: u64) -> ProgressBar {
    if total < SHOWN_BYTES {
        return ProgressBar::hidden();
    }
    bar(what, total, "{bytes} of {total_bytes}")
}

/// indicatif shows nothing where standard error is no terminal.
fn bar(what: &'static str, length: u64, words: &str) -> ProgressBar {
    let style = ProgressStyle::with_template(&format!("{{msg}} [{{bar:40}}] {words}"));
    ProgressBar::new(length)
        .with_style(
            style
                .expect("a template of names that indicatif has")
                .progress_chars("=> "),
        )
        .with_message(what)
        .with_finish(ProgressFinish::AndClear)
}
