//! The program at a terminal: passwords that are typed, and how far its work is.

mod common;

use common::terminal::Terminal;
use common::{hex, lyra2, words, TemporaryFile};
use std::process::{Command, Stdio};

const DERIVE: &str = "derive --salt 0011223344556677 --time 1 --rows 4 --columns 2 --key-length 32";
/// Half a minute of work, of which the beginning is looked at.
const LONG: &str =
    "derive --salt 0011223344556677 --time 255 --rows 16384 --columns 256 --key-length 32";
const FIRST: &str = "Password: ";
const SECOND: &str = "The same again: ";

fn start(command: &str) -> Terminal {
    Terminal::start(command, Stdio::null())
}

/// The key's line for this password, by standard input.
fn due(password: &[u8]) -> String {
    lyra2(&words(DERIVE), password).result()
}

/// Types these lines at these prompts.
fn typed(command: &str, lines: &[(&str, &[u8])]) -> (Option<i32>, String) {
    let mut terminal = start(command);
    for (prompt, line) in lines {
        terminal.wait_for(prompt);
        terminal.type_in(line);
    }
    let (status, shown) = terminal.end();
    (status.code(), shown)
}

#[test]
fn a_typed_password_is_not_shown_and_asked_for_twice() {
    for password in ["correct horse", " tab\tand spaces ", "Gänsefüßchen „“", ""] {
        let line = format!("{password}\n");
        let lines = [(FIRST, line.as_bytes()), (SECOND, line.as_bytes())];
        let found = typed(&format!("lyra2 {DERIVE}"), &lines);
        // Nothing but the prompts, the ends of their lines and the key.
        let shown = format!("{FIRST}\n{SECOND}\n{}", due(password.as_bytes()));
        assert_eq!(found, (Some(0), shown));
    }
}

/// For an account it is asked for twice, for a check of one once; a book that is refused is not typed for.
#[test]
fn the_password_of_an_account_is_typed() {
    let file = TemporaryFile::new();
    let of_book = format!("--book {} --number 7", file.name());
    let add = format!("lyra2 book add {of_book} --time 1 --rows 4 --columns 2 --key-length 32");
    let secret = b"secret\n";
    let found = typed(&add, &[(FIRST, secret), (SECOND, secret)]);
    let shown = format!("{FIRST}\n{SECOND}\naccount 7 added\n");
    assert_eq!(found, (Some(0), shown));
    let check = format!("lyra2 book check {of_book}");
    for (line, status, word) in [(&secret[..], 0, "yes"), (b"other\n", 1, "no")] {
        let found = typed(&check, &[(FIRST, line)]);
        assert_eq!(found, (Some(status), format!("{FIRST}\n{word}\n")));
    }
    let before = file.bytes();
    let found = typed(&add, &[(FIRST, secret), (SECOND, b"Secret\n")]);
    assert_eq!(found.0, Some(2));
    assert_eq!(file.bytes(), before);
    std::fs::write(file.path(), b"no book").expect("our file");
    for command in [&add, &check] {
        let (status, shown) = typed(command, &[]);
        assert_eq!(status, Some(2));
        assert!(
            shown.contains("refused 17") && !shown.contains(FIRST),
            "{shown}"
        );
    }
}

/// A terminal shows what is typed, before the program runs and after it.
#[test]
fn the_terminal_shows_again_what_is_typed() {
    let mut terminal = start(&format!(
        "echo ready; read first; lyra2 {DERIVE}; read last; test \"$last\" = after"
    ));
    terminal.wait_for("ready");
    terminal.type_in(b"before\n");
    terminal.wait_for(FIRST);
    terminal.type_in(b"secret\n");
    terminal.wait_for(SECOND);
    terminal.type_in(b"secret\n");
    terminal.wait_for(&due(b"secret").replace('\n', "\r\n"));
    terminal.type_in(b"after\n");
    let (status, shown) = terminal.end();
    assert!(status.success(), "{shown}");
    assert!(shown.contains("before") && shown.contains("after"));
    assert!(!shown.contains("secret"), "{shown}");
}

/// Output is stopped, as by control-S, so that the prompt can't appear: whoever waits for it types nothing that is seen.
#[test]
fn what_is_typed_is_hidden_before_the_prompt_is_shown() {
    let mut terminal = start(&format!("tty; read next; lyra2 {DERIVE}"));
    terminal.wait_for("\r\n");
    let device = terminal.shown().trim_end().to_string();
    let settings = || {
        let stty = Command::new("stty").args(["-a", "-F", &device]).output();
        String::from_utf8(stty.expect("stty, of coreutils").stdout).expect("names of settings")
    };
    assert!(settings().contains(" echo "), "{}", settings());
    terminal.type_in(b"\x13next\n");
    terminal.wait_until("hidden", || settings().contains(" -echo "));
    terminal.type_in(b"\x11");
    terminal.wait_for(FIRST);
    terminal.type_in(b"secret\n");
    terminal.wait_for(SECOND);
    terminal.type_in(b"secret\n");
    let (status, shown) = terminal.end();
    assert!(status.success(), "{shown}");
    assert!(!shown.contains("secret"), "{shown}");
}

/// What is typed ahead of the second prompt counts, and is hidden too.
#[test]
fn both_passwords_may_be_typed_at_once() {
    let both: [(&str, &[u8]); 1] = [(FIRST, b"secret\nsecret\n")];
    let found = typed(&format!("lyra2 {DERIVE}"), &both);
    let ends = found.1.matches('\n').count();
    assert_eq!((found.0, ends), (Some(0), 3), "{}", found.1);
    assert!(!found.1.contains("secret"), "{}", found.1);
}

/// The shell goes on after an interrupt here, as one at a console does, and not all shells put a terminal right.
#[test]
fn an_interrupt_leaves_a_terminal_that_shows_what_is_typed() {
    let mut terminal = start(&format!(
        "trap : INT; lyra2 {DERIVE}; echo status $?; read last"
    ));
    terminal.wait_for(FIRST);
    terminal.type_in(b"half a pass\x03");
    terminal.wait_for("status 130");
    terminal.type_in(b"after\n");
    let (_, shown) = terminal.end();
    assert!(shown.contains("after"), "{shown}");
    assert!(!shown.contains("half"), "{shown}");
}

#[test]
fn two_different_passwords_make_no_key() {
    let lines: [(&str, &[u8]); 2] = [(FIRST, b"secret\n"), (SECOND, b"Secret\n")];
    let found = typed(&format!("lyra2 {DERIVE}"), &lines);
    let line = "lyra2 derive: two different passwords were typed\n";
    assert_eq!(found, (Some(2), format!("{FIRST}\n{SECOND}\n{line}")));
}

#[test]
fn a_check_asks_once() {
    let key = due(b"secret");
    let key = key.trim_end();
    let check = format!(
        "lyra2 {} --key {key}",
        DERIVE
            .replace("derive", "check")
            .replace(" --key-length 32", "")
    );
    let found = typed(&check, &[(FIRST, b"secret\n")]);
    assert_eq!(found, (Some(0), format!("{FIRST}\nyes\n")));
    let found = typed(&check, &[(FIRST, b"Secret\n")]);
    assert_eq!(found, (Some(1), format!("{FIRST}\nno\n")));
}

/// The salts are random, so the lines are told by whether a login takes them.
#[test]
fn a_line_asks_twice_and_a_login_once() {
    let file = TemporaryFile::new();
    let costs = "--time 1 --rows 4 --columns 2 --key-length 32";
    let line = format!("lyra2 line {costs} --output {}", file.name());
    let twice: [(&str, &[u8]); 2] = [(FIRST, b"secret\n"), (SECOND, b"secret\n")];
    let found = typed(&line, &twice);
    assert_eq!(found, (Some(0), format!("{FIRST}\n{SECOND}\n")));
    let login = format!("lyra2 login --line-file {}", file.name());
    let found = typed(&login, &[(FIRST, b"secret\n")]);
    assert_eq!(found, (Some(0), format!("{FIRST}\nyes\n")));
    let found = typed(&login, &[(FIRST, b"Secret\n")]);
    assert_eq!(found, (Some(1), format!("{FIRST}\nno\n")));
    let old = file.bytes();
    let slip: [(&str, &[u8]); 2] = [(FIRST, b"secret\n"), (SECOND, b"Secret\n")];
    let (status, shown) = typed(&line, &slip);
    assert_eq!(status, Some(2));
    assert!(
        shown.ends_with("two different passwords were typed\n"),
        "{shown}"
    );
    assert_eq!(file.bytes(), old);
}

/// The two commands of the help, as they stand there.
#[test]
fn the_example_of_the_help() {
    for command in ["line", "login"] {
        let help = lyra2(&["help", command], b"").result();
        let commands: Vec<&str> = help
            .lines()
            .filter_map(|line| line.strip_prefix("    lyra2 "))
            .collect();
        let [make, log_in] = commands[..] else {
            panic!("two commands are due: {help}");
        };
        let (file, name) = (TemporaryFile::new(), " line");
        assert!(make.ends_with(name) && log_in.ends_with(name), "{help}");
        let script = [make, log_in]
            .map(|line| format!("lyra2 {} {}", line.trim_end_matches(name), file.name()))
            .join("; ");
        let again = "Password: \r\nThe same again: \r\nPassword: ";
        let found = typed(
            &script,
            &[FIRST, SECOND, again].map(|prompt| (prompt, &b"secret\n"[..])),
        );
        let shown = format!("{FIRST}\n{SECOND}\n{FIRST}\nyes\n");
        assert_eq!(found, (Some(0), shown), "{command}");
    }
}

/// Nothing of the line is left to the shell, which would take it for a command.
#[test]
fn a_long_line_is_refused_whole() {
    let line = [&[b'p'; 2000][..], b"\n"].concat();
    let lines = [(FIRST, &line[..]), (SECOND, &line[..])];
    let command = format!("lyra2 {DERIVE}; echo status $?; read last; echo \"[$last]\"");
    let mut terminal = start(&command);
    for (prompt, line) in lines {
        terminal.wait_for(prompt);
        terminal.type_in(line);
    }
    terminal.wait_for("status 2");
    terminal.type_in(b"next\n");
    let (_, shown) = terminal.end();
    let refused = "lyra2 derive: refused 2: the password must be 0 to 1024 bytes long\nstatus 2\n";
    assert_eq!(shown, format!("{FIRST}\n{SECOND}\n{refused}next\n[next]\n"));
}

#[test]
fn bytes_that_are_no_text_and_the_end_of_the_input() {
    let command = format!("lyra2 {DERIVE}");
    let found = typed(&command, &[(FIRST, b"g\xe4nse\n")]);
    let line = "lyra2 derive: what was typed is not UTF-8; other bytes are taken from standard input or --password-file\n";
    assert_eq!(found, (Some(2), format!("{FIRST}\n{line}")));
    // Control-D at the start of a line.
    let (status, shown) = typed(&command, &[(FIRST, b"\x04")]);
    let line = "lyra2 derive: terminal: unexpected end of file\n";
    assert_eq!((status, shown), (Some(2), format!("{FIRST}{line}")));
}

#[test]
fn nothing_is_typed_for_a_command_that_is_asked_wrongly() {
    let wrong = DERIVE.replace("--rows 4", "--rows four");
    let line = "lyra2 derive: --rows: \"four\" is not a number in decimal digits\n";
    let found = typed(&format!("lyra2 {wrong}"), &[]);
    assert_eq!(found, (Some(2), line.to_string()));
    let file = TemporaryFile::holding(b"$lyra2$t=1,r=2,c=1$c2FsdHNhbHQ$AAAA\n");
    let line = "lyra2 login: refused 5: the number of rows R must be 3 to 16384\n";
    let found = typed(&format!("lyra2 login --line-file {}", file.name()), &[]);
    assert_eq!(found, (Some(2), line.to_string()));
}

#[test]
fn long_work_shows_how_far_it_is() {
    for lanes in ["", "--lanes 4"] {
        let terminal = start(&format!("printf pass | lyra2 {LONG} {lanes}"));
        terminal.wait_for("deriving [");
        // Which seconds are shown is up to how busy the machine is.
        let passed = |second| format!("00:00:{second:02} of about 00:");
        terminal.wait_until("a second later", || {
            (1..60).any(|second| terminal.shown().contains(&passed(second)))
        });
    }
}

#[test]
fn short_work_shows_nothing() {
    let found = typed(&format!("printf pass | lyra2 {DERIVE}"), &[]);
    assert_eq!(found, (Some(0), due(b"pass")));
}

/// Standard error may go to a file while the terminal is there.
#[test]
fn where_standard_error_is_no_terminal_nothing_is_shown() {
    let errors = TemporaryFile::new();
    let line = LONG.replace("--columns 256", "--columns 16");
    let command = format!("printf pass | lyra2 {line} 2>{}", errors.name());
    let (status, shown) = typed(&command, &[]);
    assert_eq!(status, Some(0), "{shown}");
    assert_eq!(shown.trim_end().len(), 64, "{shown}");
    assert_eq!(errors.bytes(), b"");
}

/// Whether a bar was shown with these words and then cleared, so that the line is free again.
fn was_shown_and_cleared(shown: &str, bar: &str, words: &str) -> bool {
    let after = shown.rsplit_once(bar).map(|(_, after)| after);
    after.is_some_and(|after| after.contains(words) && after.ends_with("\u{1b}[2K"))
}

/// Files of some 100 MB: their bytes are counted, and the results are alone on standard output.
#[test]
fn large_files_show_how_far_they_are() {
    let file = TemporaryFile::new();
    let result = TemporaryFile::new();
    let (name, out) = (file.name(), result.name());
    let trial = LONG
        .replace("derive", "trial")
        .replace("--time 255", "--time 0")
        .replace("--columns 256", "--columns 64");
    let (status, shown) = typed(
        &format!("printf pass | lyra2 {trial} --output {name} >{out}"),
        &[],
    );
    assert_eq!(status, Some(0), "{shown}");
    assert!(
        was_shown_and_cleared(&shown, "writing [", " of 96.00 MiB"),
        "{shown:?}"
    );
    let bytes = file.bytes();
    let sum: Vec<u8> = bytes[bytes.len() - 8..].iter().rev().copied().collect();
    let due = format!("{} bytes, checksum {}\n", bytes.len(), hex(&sum));
    assert_eq!(result.bytes(), due.as_bytes());
    let (status, shown) = typed(&format!("lyra2 compare {name} {name} >{out}"), &[]);
    assert_eq!(status, Some(0), "{shown}");
    assert!(
        was_shown_and_cleared(&shown, "reading [", " of 192.00 MiB"),
        "{shown:?}"
    );
    assert_eq!(result.bytes(), b"equal\n");
}
