//! Login lines: what `line` makes, what `login` takes, and lines that are not in order.

mod common;

use common::line::{encode, Line};
use common::system_calls::{on_call, Answer, Which, GETRANDOM, NOT_PERMITTED};
use common::{command, hex, lyra2, words, Run, TemporaryFile};
use std::fs::File;
use std::io::Seek;
use std::os::unix::fs::PermissionsExt;
use std::process::{Command, Stdio};

const COSTS: &str = "--time 1 --rows 4 --columns 2";
const SALT: &[u8] = b"saltsalt";

/// Makes a line with a key of 32 bytes and these options.
fn made(options: &str, password: &[u8]) -> Run {
    let line = format!("line {COSTS} --key-length 32 {options}");
    lyra2(&words(&line), password)
}

/// The line that is due of a password, without a newline.
fn due(password: &[u8]) -> String {
    Line::of_password(password, [1, 4, 2], SALT, 32).write()
}

/// Logs in with a line's file that holds these bytes.
fn login(line: &[u8], password: &[u8]) -> Run {
    let file = TemporaryFile::holding(line);
    lyra2(&["login", "--line-file", file.name()], password)
}

#[track_caller]
fn is_yes(run: Run) {
    assert_eq!(run.result(), "yes\n");
}

#[track_caller]
fn is_no(run: Run) {
    let found = (run.status, run.output.as_str(), run.error.as_str());
    assert_eq!(found, (Some(1), "no\n", ""));
}

/// The words of refusal 11.
const NOT_OF_THE_FORM: &str =
    "lyra2 login: refused 11: the line must be of the form $lyra2$t=T,r=R,c=C$SALT$KEY";

#[test]
fn a_line_with_a_given_salt_is_the_second_programs() {
    for (costs, salt, key_length) in [
        ([1, 4, 2], &b"saltsalt"[..], 32),
        ([0, 3, 1], b"\0\xff\xfe saltsalt", 1),
        ([255, 3, 1], &[0x5a; 63], 97),
        ([2, 300, 17], &[0xfb; 64], 1024),
    ] {
        let line = Line::of_password(b"pass", costs, salt, key_length).write() + "\n";
        let [t, r, c] = costs;
        let options = format!("line --time {t} --rows {r} --columns {c} --key-length {key_length}");
        let file = TemporaryFile::holding(salt);
        for salt in [
            format!("--salt {}", hex(salt)),
            format!("--salt-file {}", file.name()),
        ] {
            let run = lyra2(&words(&format!("{options} {salt}")), b"pass\n");
            assert_eq!(run.result(), line, "{options}");
        }
        is_yes(login(line.as_bytes(), b"pass"));
        is_no(login(line.as_bytes(), b"word"));
    }
}

/// Every part of a random salt differs from run to run; by chance it would not once in 2 to the power 64.
#[test]
fn without_a_given_salt_it_is_random() {
    for (options, length) in [
        ("", 16),
        ("--salt-length 8", 8),
        ("--salt-length 20", 20),
        ("--salt-length 64", 64),
    ] {
        let lines = [(); 4].map(|()| {
            let text = made(options, b"pass").result();
            let line = Line::read(text.strip_suffix('\n').expect("a whole line"));
            let due = Line::of_password(b"pass", [1, 4, 2], &line.salt, 32);
            assert_eq!(line, due, "{options}");
            line
        });
        let mut parts: Vec<&[u8]> = Vec::new();
        for line in &lines {
            assert_eq!(line.salt.len(), length, "{options}");
            parts.extend([&line.salt[..8], &line.salt[length - 8..]]);
        }
        parts.sort();
        parts.dedup();
        // Of a salt of eight bytes both parts are the same.
        let due = if length == 8 { 4 } else { 8 };
        assert_eq!(parts.len(), due, "{lines:?}");
    }
}

#[test]
fn without_a_random_source_there_is_no_line() {
    let run = |options: &str| {
        let mut program = command();
        program
            .args(words(&format!("line {COSTS} --key-length 32 {options}")))
            .stdin(Stdio::null());
        let error = Answer::Error(NOT_PERMITTED);
        on_call(&mut program, GETRANDOM, Which::All, error);
        Run::of(program.output().expect("the program starts"))
    };
    for options in ["", "--salt-length 8"] {
        let due = "lyra2 line: random source: Operation not permitted (os error 1)";
        assert_eq!(run(options).failure(), due);
    }
    let given = format!("--salt {}", hex(SALT));
    assert_eq!(run(&given).result(), due(b"") + "\n");
}

#[test]
fn what_line_prints_is_what_login_takes() {
    // With a newline more it is the longest.
    let long = [b'x'; 1023];
    for password in [&b"pass"[..], b"", b"\0\xff\r\n\n", b" ", &long] {
        let password_file = TemporaryFile::holding(password);
        let by_file = format!("--password-file {}", password_file.name());
        let line = made(&by_file, b"not this").result();
        let file = TemporaryFile::holding(line.as_bytes());
        let from_both = format!("login --line-file {} {by_file}", file.name());
        is_yes(lyra2(&words(&from_both), b"not this"));
        is_yes(lyra2(&words(&format!("login {by_file}")), line.as_bytes()));
        is_yes(login(line.as_bytes(), &[password, b"\n"].concat()));
        is_no(login(line.as_bytes(), &[password, b"\n\n"].concat()));
        is_no(login(line.as_bytes(), b"another"));
    }
    let line = made("", b"pass").result();
    let file = TemporaryFile::holding(line.as_bytes());
    let by_device = format!(
        "login --password-file /dev/stdin --line-file {}",
        file.name()
    );
    is_yes(lyra2(&words(&by_device), b"pass"));
    is_no(lyra2(&words(&by_device), b"pass\n"));
}

#[test]
fn a_line_for_a_file() {
    let file = TemporaryFile::holding(b"an older file");
    std::fs::set_permissions(file.path(), PermissionsExt::from_mode(0o644)).expect("our file");
    let options = format!("--salt {} --output {}", hex(SALT), file.name());
    assert_eq!(made(&options, b"pass").result(), "");
    assert_eq!(file.bytes(), (due(b"pass") + "\n").as_bytes());
    let mode = file
        .path()
        .metadata()
        .expect("the file")
        .permissions()
        .mode();
    assert_eq!(mode & 0o7777, 0o600);
    is_yes(lyra2(&["login", "--line-file", file.name()], b"pass"));
    // A refusal, and a name that cannot be had, leave it as it was.
    let refused = made(&format!("{options} --password-file /dev/zero"), b"");
    assert!(refused.failure().contains("refused 2"));
    let through_file = format!("--output {}/line", file.name());
    let line = made(&through_file, b"pass").failure();
    assert!(line.ends_with("Not a directory (os error 20)"), "{line}");
    let line = made("--output .", b"pass").failure();
    assert_eq!(line, "lyra2 line: \".\": not the name of a file");
    assert_eq!(file.bytes(), (due(b"pass") + "\n").as_bytes());
}

/// A file that may not grow, as on a full disk.
#[test]
fn a_line_that_cannot_be_written() {
    let file = TemporaryFile::holding(b"an older file");
    let arguments = format!("line {COSTS} --key-length 32 --output {}", file.name());
    let script = format!("trap '' XFSZ && ulimit -f 0 && printf pass | \"$0\" {arguments}");
    let ended = Command::new("sh")
        .args(["-c", &script, env!("CARGO_BIN_EXE_lyra2")])
        .current_dir(env!("CARGO_TARGET_TMPDIR"))
        .output()
        .expect("a shell");
    let due = format!(
        "lyra2 line: {:?}: File too large (os error 27)\n",
        file.name()
    );
    assert_eq!(String::from_utf8_lossy(&ended.stderr), due);
    assert_eq!(ended.status.code(), Some(2));
    assert_eq!(file.bytes(), b"an older file");
}

#[test]
fn lines_that_cannot_be_made() {
    let salt = hex(SALT);
    for (options, words) in [
        (
            "--salt-length 0",
            "refused 3: the salt must be at least 8 bytes long",
        ),
        (
            "--salt-length 7",
            "refused 3: the salt must be at least 8 bytes long",
        ),
        (
            "--salt 00",
            "refused 3: the salt must be at least 8 bytes long",
        ),
        (
            "--salt-length 65",
            "refused 10: the salt must be at most 64 bytes long",
        ),
        (
            "--salt-length 18446744073709551615",
            "refused 10: the salt must be at most 64 bytes long",
        ),
        (
            "--salt-file /dev/zero",
            "refused 10: the salt must be at most 64 bytes long",
        ),
        (
            "--password-file /dev/zero",
            "refused 2: the password must be 0 to 1024 bytes long",
        ),
    ] {
        assert_eq!(
            made(options, b"pass").failure(),
            format!("lyra2 line: {words}")
        );
    }
    let good = format!("line {COSTS} --key-length 32 --salt {salt}");
    for (from, to, words) in [
        (
            "--key-length 32",
            "--key-length 0",
            "refused 1: the key must be 1 to 1024 bytes long",
        ),
        (
            "--key-length 32",
            "--key-length 18446744073709551615",
            "refused 1: the key must be 1 to 1024 bytes long",
        ),
        (
            "--time 1",
            "--time 256",
            "refused 4: the time cost T must be 0 to 255",
        ),
        (
            "--rows 4",
            "--rows 2",
            "refused 5: the number of rows R must be 3 to 16384",
        ),
        (
            "--columns 2",
            "--columns 0",
            "refused 6: the number of columns C must be 1 to 256",
        ),
    ] {
        let line = lyra2(&common::words(&good.replace(from, to)), b"pass").failure();
        assert_eq!(line, format!("lyra2 line: {words}"));
    }
}

/// A line with these numbers, and with zeros for salt and key.
fn zeros(numbers: &str, salt: usize, key: usize) -> String {
    let [salt, key] = [salt, key].map(|length| encode(&vec![0; length]));
    format!("$lyra2${numbers}${salt}${key}")
}

/// One wrong value after another is put right.
#[test]
fn lines_with_values_outside_the_limits() {
    let wrong = "t=256,r=2,c=0";
    let digits = "9".repeat(1000);
    for (line, words) in [
        (
            zeros(wrong, 0, 0),
            "refused 1: the key must be 1 to 1024 bytes long",
        ),
        (
            zeros(wrong, 0, 1025),
            "refused 1: the key must be 1 to 1024 bytes long",
        ),
        (
            zeros(wrong, 0, 60_000),
            "refused 1: the key must be 1 to 1024 bytes long",
        ),
        (
            zeros(wrong, 0, 1),
            "refused 3: the salt must be at least 8 bytes long",
        ),
        (
            zeros(wrong, 7, 1),
            "refused 3: the salt must be at least 8 bytes long",
        ),
        (
            zeros(wrong, 65, 1),
            "refused 10: the salt must be at most 64 bytes long",
        ),
        (
            zeros(wrong, 60_000, 1),
            "refused 10: the salt must be at most 64 bytes long",
        ),
        (
            zeros(wrong, 8, 1),
            "refused 4: the time cost T must be 0 to 255",
        ),
        (
            zeros(&format!("t={digits},r=3,c=1"), 8, 1),
            "refused 4: the time cost T must be 0 to 255",
        ),
        (
            zeros("t=0,r=2,c=0", 8, 1),
            "refused 5: the number of rows R must be 3 to 16384",
        ),
        (
            zeros("t=0,r=3,c=0", 8, 1),
            "refused 6: the number of columns C must be 1 to 256",
        ),
        (
            zeros("t=0,r=3,c=18446744073709551617", 8, 1),
            "refused 6: the number of columns C must be 1 to 256",
        ),
    ] {
        let due = format!("lyra2 login: {words}");
        assert_eq!(login(line.as_bytes(), b"pass").failure(), due, "{line}");
    }
    is_no(login(zeros("t=0,r=3,c=1", 8, 1).as_bytes(), b"pass"));
    // The line is judged before the password.
    let long = vec![b'x'; 2000];
    let line = login(zeros("t=0,r=3,c=1", 7, 1).as_bytes(), &long).failure();
    assert!(line.contains("refused 3"), "{line}");
    let line = login(due(b"pass").as_bytes(), &long).failure();
    assert_eq!(
        line,
        "lyra2 login: refused 2: the password must be 0 to 1024 bytes long"
    );
}

#[test]
fn texts_that_are_no_line() {
    let good = due(b"pass");
    is_yes(login(good.as_bytes(), b"pass"));
    for (from, to) in [
        (good.as_str(), ""),
        ("$lyra2", "lyra2"),
        ("$lyra2", " $lyra2"),
        ("$lyra2", "\u{feff}$lyra2"),
        ("$lyra2", "$Lyra2"),
        ("$lyra2", "$argon2id"),
        ("t=1", "t=01"),
        ("t=1", "t=+1"),
        ("t=1", "t="),
        ("t=1,", ""),
        ("t=1,r=4", "r=4,t=1"),
        (",r", ", r"),
        ("c=2", "c=2,p=1"),
        ("$c2FsdHNhbHQ", "$c2FsdHNhbHQ="),
        ("$c2FsdHNhbHQ", "$c2FsdHNhbHR"),
        ("$c2FsdHNhbHQ", "$c2FsdHNhb"),
        ("$c2FsdHNhbHQ", "$c2FsdHN-bHQ"),
        ("$c2FsdHNhbHQ", "$c2FsdHNhbHQ$"),
        ("$c2FsdHNhbHQ", ""),
    ] {
        let text = good.replace(from, to);
        assert_ne!(text, good);
        assert_eq!(
            login(text.as_bytes(), b"pass").failure(),
            NOT_OF_THE_FORM,
            "{text}"
        );
    }
}

/// Of a key's text every letter is exchanged: no, or not of the form where unused bits are not zero.
#[test]
fn every_wrong_letter_of_the_key() {
    let good = due(b"pass");
    let start = good.rfind('$').expect("a key") + 1;
    let last = good.len() - 1;
    for place in start..=last {
        let mut text = good.clone().into_bytes();
        text[place] = if text[place] == b'A' { b'E' } else { b'A' };
        is_no(login(&text, b"pass"));
    }
    // A key of 32 bytes leaves two bits of its last letter unused.
    let mut text = good.into_bytes();
    text[last] += 1;
    assert_eq!(login(&text, b"pass").failure(), NOT_OF_THE_FORM);
}

#[test]
fn exactly_one_last_newline_is_left_out() {
    let good = due(b"pass");
    let password = TemporaryFile::holding(b"pass");
    let by_input = format!("login --password-file {}", password.name());
    for text in [good.clone(), format!("{good}\n")] {
        is_yes(login(text.as_bytes(), b"pass"));
        is_yes(lyra2(&words(&by_input), text.as_bytes()));
    }
    for text in [
        String::new(),
        "\n".to_string(),
        format!("{good}\n\n"),
        format!("{good}\r\n"),
        format!("{good}\r"),
        format!("{good} "),
        format!("{good}\0"),
        format!("\n{good}"),
        format!("{good}\n{good}\n"),
        format!("{good}\n{good}"),
    ] {
        assert_eq!(login(text.as_bytes(), b"pass").failure(), NOT_OF_THE_FORM);
        let run = lyra2(&words(&by_input), text.as_bytes());
        assert_eq!(run.failure(), NOT_OF_THE_FORM, "{text:?}");
    }
}

/// Up to 1 MiB the library judges what is read; more is not read.
#[test]
fn long_and_endless_files() {
    const MOST: usize = 1 << 20;
    let password = TemporaryFile::holding(b"pass");
    let by_input = format!("login --password-file {}", password.name());
    let rest = ",r=4,c=2$c2FsdHNhbHQ$AAAA";
    let start = "$lyra2$t=1";
    for (count, newline, is_read) in [
        (MOST, "", true),
        (MOST, "\n", true),
        (MOST + 1, "", false),
        (MOST + 1, "\n", false),
        (MOST, "\n\n", false),
        (3 * MOST, "\n", false),
    ] {
        let digits = "0".repeat(count - start.len() - rest.len());
        let text = format!("{start}{digits}{rest}{newline}");
        let file = TemporaryFile::holding(text.as_bytes());
        let by_file = lyra2(&["login", "--line-file", file.name()], b"pass").failure();
        let by_input = lyra2(&words(&by_input), text.as_bytes()).failure();
        if is_read {
            let due = "lyra2 login: refused 4: the time cost T must be 0 to 255";
            assert_eq!([by_file.as_str(), by_input.as_str()], [due, due], "{count}");
        } else {
            let long = "more than 1048576 bytes; a login line has at most 1480";
            assert_eq!(by_file, format!("lyra2 login: {:?}: {long}", file.name()));
            assert_eq!(by_input, format!("lyra2 login: standard input: {long}"));
        }
    }
    let line = lyra2(&words("login --line-file /dev/zero"), b"pass").failure();
    assert!(line.contains("more than 1048576 bytes"), "{line}");
    // The program reads by a handle that shares its place with ours.
    let file = TemporaryFile::holding(&[b'0'; 3 * MOST]);
    let mut input = File::open(file.path()).expect("the file");
    let handle = input.try_clone().expect("a second handle");
    let ended = command().args(words(&by_input)).stdin(handle).output();
    assert_eq!(ended.expect("the program starts").status.code(), Some(2));
    assert_eq!(input.stream_position().expect("a place"), MOST as u64 + 2);
}

/// Whatever standard input is called: nothing is read from it for both, so that an empty password is never tried.
#[test]
fn line_and_password_from_the_same_file() {
    let line = due(b"");
    let file = TemporaryFile::holding(line.as_bytes());
    let name = file.name();
    let both = "lyra2 login: --line-file or --password-file is missing";
    assert_eq!(lyra2(&["login"], line.as_bytes()).failure(), both);
    let same = "lyra2 login: the line and the password would come from the same file";
    for options in [
        "--line-file /dev/stdin".to_string(),
        "--line-file /proc/self/fd/0".to_string(),
        "--password-file /dev/stdin".to_string(),
        "--password-file /dev/fd/0".to_string(),
        "--line-file /dev/stdin --password-file /dev/fd/0".to_string(),
        format!("--line-file {name} --password-file {name}"),
        format!("--line-file {name} --password-file ./{name}"),
    ] {
        let run = lyra2(&words(&format!("login {options}")), line.as_bytes());
        assert_eq!(run.failure(), same, "{options}");
    }
    let redirected = |options: &str| {
        let mut program = command();
        let input = File::open(file.path()).expect("the file");
        let ended = program.args(words(options)).stdin(input).output();
        String::from_utf8(ended.expect("the program starts").stderr).expect("text")
    };
    let by_name = redirected(&format!("login --line-file {name}"));
    assert_eq!(by_name, format!("{same}\n"));
    let by_name = redirected(&format!("login --password-file {name}"));
    assert_eq!(by_name, format!("{same}\n"));
}
