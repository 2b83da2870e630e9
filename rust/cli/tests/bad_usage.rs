//! Commands that are asked wrongly: each gets one line that says what and where, and status 2.

mod common;

use common::{command, limited, lyra2, words, TemporaryFile};
use std::io::Write;
use std::process::Stdio;

const DERIVE: &str = "derive --salt 0011223344556677 --time 1 --rows 3 --columns 1 --key-length 8";
const CHECK: &str = "check --salt 0011223344556677 --time 1 --rows 3 --columns 1";
const LINE: &str = "line --time 1 --rows 3 --columns 1 --key-length 8";
const ADD: &str = "book add --book x --number 1 --time 1 --rows 3 --columns 1 --key-length 8";
const COST: &str = "cost --time 1 --rows 3 --columns 1 --key-length 8 --salt-length 8";
const CHOOSE: &str = "choose --words 36 --budget 999 --key-length 8";

/// A command line, cut at spaces, and what its line of failure has to say.
#[track_caller]
fn says(line: &str, due: &str) {
    let found = lyra2(&words(line), b"pass").failure();
    assert_eq!(found, due, "{line}");
}

#[test]
fn commands() {
    says("", "lyra2: no command; `lyra2 help` lists them");
    says(
        "deduce",
        "lyra2: unknown command \"deduce\"; `lyra2 help` lists them",
    );
    says("--deduce", "lyra2: unknown option \"--deduce\"");
    says(
        "Derive",
        "lyra2: unknown command \"Derive\"; is derive meant?",
    );
    says(
        "help deduce",
        "lyra2 help: unknown command \"deduce\"; `lyra2 help` lists them",
    );
    says(
        "help derive check",
        "lyra2 help: unknown command \"check\"; `lyra2 help` lists them",
    );
    says(
        "completions tcsh",
        "lyra2 completions: SHELL: one of bash, elvish, fish, powershell, zsh is due",
    );
}

/// The commands of a book have names of two words.
#[test]
fn commands_of_a_book() {
    says(
        "book",
        "lyra2 book: no command; `lyra2 help book` lists them",
    );
    says(
        "book keep",
        "lyra2 book: unknown command \"keep\"; `lyra2 help book` lists them",
    );
    says(
        "book ad",
        "lyra2 book: unknown command \"ad\"; is add meant?",
    );
    says(
        "add",
        "lyra2: unknown command \"add\"; `lyra2 help` lists them",
    );
    says(
        "help book keep",
        "lyra2 help: unknown command \"keep\"; `lyra2 help` lists them",
    );
    says("book --book x", "lyra2 book: unknown option \"--book\"");
    says(
        &format!("{ADD} 7"),
        "lyra2 book add: an argument too many; book add takes options alone",
    );
    says(
        "book check --book x",
        "lyra2 book check: --number is missing",
    );
    says("book list", "lyra2 book list: --book is missing");
    says(
        "book remove --number 1 --number 2 --book x",
        "lyra2 book remove: --number is given twice",
    );
    says(
        &format!("{ADD} --salt 00 --salt-length 8"),
        "lyra2 book add: --salt and --salt-length are both given",
    );
}

#[test]
fn numbers_of_accounts() {
    let says = |number: &str, words: &str| {
        let due = format!("lyra2 book remove: --number: {words}");
        says(&format!("book remove --book x --number {number}"), &due);
    };
    says("-1", "\"-1\" is not a number in decimal digits");
    says("0x1", "\"0x1\" is not a number in decimal digits");
    says("4294967296", "4294967296 has more than 32 bits");
    says(
        "18446744073709551616",
        "18446744073709551616 has more than 64 bits",
    );
}

#[test]
fn options() {
    says(
        &format!("{DERIVE} --threads 3"),
        "lyra2 derive: unknown option \"--threads\"",
    );
    says(
        &format!("{DERIVE} --threads=3"),
        "lyra2 derive: unknown option \"--threads\"",
    );
    says(
        &format!("{DERIVE} --row 3"),
        "lyra2 derive: unknown option \"--row\"; is --rows meant?",
    );
    says(
        &format!("{DERIVE} -r 3"),
        "lyra2 derive: unknown option \"-r\"",
    );
    says(
        &format!("{DERIVE} --key 00"),
        "lyra2 derive: unknown option \"--key\"; is --key-length meant?",
    );
    says(
        &format!("{DERIVE} --rows 3"),
        "lyra2 derive: --rows is given twice",
    );
    says(
        &format!("{DERIVE} --rows=4"),
        "lyra2 derive: --rows is given twice",
    );
    says(
        &format!("{DERIVE} --password-file"),
        "lyra2 derive: --password-file has no value",
    );
    says(
        "derive --salt --rows 3",
        "lyra2 derive: --salt has no value",
    );
    says(
        &format!("{DERIVE} --rounds 2 --rounds 2"),
        "lyra2 derive: --rounds is given twice",
    );
    says(
        &format!("{DERIVE} --rotation"),
        "lyra2 derive: --rotation has no value",
    );
    says(
        &format!("{DERIVE} --mixer plain --mixer plain"),
        "lyra2 derive: --mixer is given twice",
    );
    // A line goes with the usual choice, and no rotation changes a cost.
    for (line, option) in [
        (LINE, "--rounds"),
        (LINE, "--rotation"),
        (LINE, "--mixer"),
        ("login --line-file x", "--rounds"),
        ("login --line-file x", "--rotation"),
        ("login --line-file x", "--mixer"),
        (ADD, "--rounds"),
        (ADD, "--rotation"),
        (ADD, "--mixer"),
        ("book check --book x --number 1", "--mixer"),
        (COST, "--rotation"),
        (CHOOSE, "--rotation"),
    ] {
        let found = lyra2(&words(&format!("{line} {option} 2")), b"pass").failure();
        let name = line.split(" --").next().expect("a name");
        let due = format!("lyra2 {name}: unknown option {option:?}");
        assert!(found.starts_with(&due), "{found}");
    }
}

#[test]
fn options_that_exclude_each_other_or_are_missing() {
    says(
        &format!("{DERIVE} --salt-file x"),
        "lyra2 derive: --salt and --salt-file are both given",
    );
    says(
        &format!("{CHECK} --key 00 --key-file x"),
        "lyra2 check: --key and --key-file are both given",
    );
    says(CHECK, "lyra2 check: --key or --key-file is missing");
    says(
        "derive --time 1 --rows 3 --columns 1 --key-length 8",
        "lyra2 derive: --salt or --salt-file is missing",
    );
    says(COST, "lyra2 cost: --password-length is missing");
    says(
        &format!("{LINE} --salt 00 --salt-length 8"),
        "lyra2 line: --salt and --salt-length are both given",
    );
    says(
        &format!("{LINE} --salt-file x --salt-length 8"),
        "lyra2 line: --salt-file and --salt-length are both given",
    );
    says(
        &format!("{LINE} --salt-file x --salt 00"),
        "lyra2 line: --salt-file and --salt are both given",
    );
    says(
        "login",
        "lyra2 login: --line-file or --password-file is missing",
    );
    says(
        &DERIVE.replace("derive", "trial"),
        "lyra2 trial: --output is missing",
    );
    says(
        "derive --time 1 --columns 1",
        "lyra2 derive: --key-length, --rows and --salt or --salt-file are missing",
    );
    for option in ["--time 1", "--rows 3", "--columns 1", "--key-length 8"] {
        let name = words(option)[0];
        let line = DERIVE.replace(option, "");
        says(&line, &format!("lyra2 derive: {name} is missing"));
    }
}

/// A choice takes one of two limits on the memory, and one of two on the time.
#[test]
fn limits_of_a_choice() {
    let with = |option: &str| format!("{CHOOSE} {option}");
    says(
        &with("--memory 1M"),
        "lyra2 choose: --words and --memory are both given",
    );
    says(
        &with("--seconds 1"),
        "lyra2 choose: --budget and --seconds are both given",
    );
    says(
        &CHOOSE.replace("--words 36", ""),
        "lyra2 choose: --memory or --words is missing",
    );
    says(
        &CHOOSE.replace("--budget 999", ""),
        "lyra2 choose: --budget or --seconds is missing",
    );
    says(
        &CHOOSE.replace("--key-length 8", ""),
        "lyra2 choose: --key-length is missing",
    );
    says(
        "choose",
        "lyra2 choose: --key-length, --memory or --words and --budget or --seconds are missing",
    );
    for option in ["--words 36", "--budget 999", "--key-length 8"] {
        let due = format!("lyra2 choose: {} is given twice", words(option)[0]);
        says(&with(option), &due);
    }
    says(
        &with("--columns 4"),
        "lyra2 choose: unknown option \"--columns\"; is --column-counts meant?",
    );
    says(
        &with("1M"),
        "lyra2 choose: an argument too many; choose takes options alone",
    );
}

#[test]
fn operands() {
    says(
        &format!("{DERIVE} password"),
        "lyra2 derive: an argument too many; derive takes options alone",
    );
    says(
        &format!("{DERIVE} -- --help"),
        "lyra2 derive: an argument too many; derive takes options alone",
    );
    says("walk", "lyra2 walk: R and ROW0 are missing");
    says("walk 8", "lyra2 walk: ROW0 is missing");
    says(
        "walk 8 3 1",
        "lyra2 walk: an argument too many; walk takes R ROW0",
    );
    says("compare one", "lyra2 compare: FILE2 is missing");
}

/// Wherever a password is put by mistake, it is not repeated; of an option nothing but its name is.
#[test]
fn secrets_in_the_wrong_place() {
    for line in [
        format!("{DERIVE} hunter2"),
        format!("{DERIVE} -- hunter2"),
        format!("{DERIVE} -- --hunter2"),
        format!("{DERIVE} -- -hunter2"),
        format!("{DERIVE} --password=hunter2"),
        format!("{DERIVE} --password hunter2"),
        format!("{DERIVE} -phunter2"),
        format!("{DERIVE} -p hunter2"),
        format!("{DERIVE} --mixer=hunter2"),
        format!("{DERIVE} --mixer hunter2"),
        format!("{DERIVE} --salt=hunter2"),
        format!("{DERIVE} --salt hunter2"),
        DERIVE.replace("0011223344556677", "hunter2"),
        format!("{CHECK} --key hunter2"),
        format!("{CHECK} --key=hunter2"),
        format!("{CHECK} --key-file x hunter2"),
        format!("{LINE} hunter2"),
        format!("{LINE} --salt hunter2"),
        "login --line-file x hunter2".to_string(),
        "login --line hunter2".to_string(),
        format!("{ADD} hunter2"),
        format!("{ADD} --password hunter2"),
        format!("{ADD} -- --hunter2"),
        "book check --book x --number 1 hunter2".to_string(),
        "book check hunter2 --book x --number 1".to_string(),
        "book hunter2".to_string(),
        "book -phunter2 check".to_string(),
        "help book hunter2".to_string(),
        "walk 8 3 hunter2".to_string(),
        "compare one two hunter2".to_string(),
        "compare one two -- --hunter2".to_string(),
        "completions hunter2".to_string(),
        "hunter2".to_string(),
        "-- --password=hunter2".to_string(),
        "help hunter2".to_string(),
        "help --password=hunter2".to_string(),
        "-phunter2 derive".to_string(),
    ] {
        let found = lyra2(&words(&line), b"pass").failure();
        assert!(!found.contains("hunter"), "{found}");
    }
}

#[test]
fn numbers() {
    let not_a_number =
        |text: &str| format!("lyra2 walk: R: {text:?} is not a number in decimal digits");
    for text in ["+8", "8.0", "0x8", "8_0", "eight", "1e3", "٣"] {
        says(&format!("walk {text} 3"), &not_a_number(text));
    }
    for text in ["", " 8", "8 ", "8\n"] {
        let line = lyra2(&["walk", text, "3"], b"").failure();
        assert_eq!(line, not_a_number(text));
    }
    says("walk -8 3", "lyra2 walk: unknown option \"-8\"");
    says("walk -- -8 3", &not_a_number("-8"));
    says(
        "walk 8 18446744073709551616",
        "lyra2 walk: ROW0: 18446744073709551616 has more than 64 bits",
    );
    says(
        "walk 8 18446744073709551615",
        "lyra2 walk: refused 9: row0 must be 3 to R-1",
    );
    let minus = DERIVE.replace("--rows 3", "--rows -3");
    says(
        &minus,
        "lyra2 derive: --rows: \"-3\" is not a number in decimal digits",
    );
    for (option, text) in [("--rounds", "-1"), ("--rotation", "2.0")] {
        says(
            &format!("{DERIVE} {option} {text}"),
            &format!("lyra2 derive: {option}: {text:?} is not a number in decimal digits"),
        );
    }
}

/// There are two mixers, and a name that is nearly one of theirs is none.
#[test]
fn mixers() {
    let trial = DERIVE.replace("derive", "trial") + " --output x";
    let check = format!("{CHECK} --key 00");
    let cost = format!("{COST} --password-length 1");
    for line in [DERIVE, &check, &trial, &cost, CHOOSE] {
        let name = words(line)[0];
        for text in [
            "BlaMka",
            "Plain",
            "blake2b",
            "0",
            "1",
            "true",
            "plain,blamka",
            "-1",
        ] {
            let due = format!("lyra2 {name}: --mixer: one of plain, blamka is due");
            says(&format!("{line} --mixer={text}"), &due);
        }
        let due = format!("lyra2 {name}: --mixer has no value");
        says(&format!("{line} --mixer"), &due);
        says(&format!("{line} --mixer="), &due);
    }
}

#[test]
fn hexadecimal() {
    let salt = |text: &str| DERIVE.replace("0011223344556677", text);
    says(
        &salt("001122334455667"),
        "lyra2 derive: --salt: an odd number of hexadecimal digits, 15; a byte has two",
    );
    says(
        &salt("00112233g4556677"),
        "lyra2 derive: --salt: character 9 is not a hexadecimal digit",
    );
    says(
        &salt("0x11223344556677"),
        "lyra2 derive: --salt: character 2 is not a hexadecimal digit",
    );
    says(
        &format!("{CHECK} --key abc"),
        "lyra2 check: --key: an odd number of hexadecimal digits, 3; a byte has two",
    );
    for (text, words) in [
        (
            "abc\n",
            "an odd number of hexadecimal digits, 3; a byte has two",
        ),
        ("ab cd\n", "character 3 is not a hexadecimal digit"),
        ("abcd\n\n", "character 5 is not a hexadecimal digit"),
        ("abcd\r\n", "character 5 is not a hexadecimal digit"),
        ("\u{feff}abcd", "character 1 is not a hexadecimal digit"),
    ] {
        let file = TemporaryFile::holding(text.as_bytes());
        let line = format!("{CHECK} --key-file {}", file.name());
        says(&line, &format!("lyra2 check: {:?}: {words}", file.name()));
    }
}

#[test]
fn files() {
    let missing = TemporaryFile::new();
    let name = missing.name();
    let no_file = format!("{name:?}: No such file or directory (os error 2)");
    says(
        &format!("{DERIVE} --password-file {name}"),
        &format!("lyra2 derive: {no_file}"),
    );
    says(
        &format!("{CHECK} --key-file {name}"),
        &format!("lyra2 check: {no_file}"),
    );
    says(
        &format!("compare {name} {name}"),
        &format!("lyra2 compare: {no_file}"),
    );
    says(
        &format!("login --line-file {name}"),
        &format!("lyra2 login: {no_file}"),
    );
    says(
        &format!("login --password-file {name}"),
        &format!("lyra2 login: {no_file}"),
    );
    let salt_file = DERIVE.replace("--salt 0011223344556677", &format!("--salt-file {name}"));
    says(&salt_file, &format!("lyra2 derive: {no_file}"));
    let folder = ".";
    let is_folder = format!("{folder:?}: Is a directory (os error 21)");
    says(
        &format!("{DERIVE} --password-file {folder}"),
        &format!("lyra2 derive: {is_folder}"),
    );
    says(
        &format!("login --line-file {folder}"),
        &format!("lyra2 login: {is_folder}"),
    );
    let trial = DERIVE.replace("derive", "trial");
    for output in [folder, "..", "/", "nothing/", "nothing/."] {
        says(
            &format!("{trial} --output {output}"),
            &format!("lyra2 trial: {output:?}: not the name of a file"),
        );
    }
    says(
        &format!("{trial} --output {name}/{name}"),
        &format!("lyra2 trial: \"{name}/{name}\": No such file or directory (os error 2)"),
    );
}

/// A file's name is data: it may hold a newline or bytes that are no text, and the line stays one line.
#[test]
fn file_names_that_are_no_plain_text() {
    use std::os::unix::ffi::OsStringExt;
    for name in [&b"a\nb"[..], b"\xff\xfe", b"\x1b[31m"] {
        let name = std::ffi::OsString::from_vec(name.to_vec());
        let arguments = ["compare".into(), name.clone(), name];
        assert!(lyra2(&arguments, b"").failure().contains("No such file"));
    }
    let odd_option = std::ffi::OsString::from_vec(b"--\xff".to_vec());
    let line = lyra2(&["derive".into(), odd_option], b"").failure();
    assert_eq!(line, "lyra2 derive: unknown option \"--\u{fffd}\"");
}

#[test]
fn a_refusal_comes_before_any_memory_is_set_aside() {
    let huge = "--time 255 --rows 18446744073709551615 --columns 18446744073709551615";
    let line = format!("derive --salt 0011223344556677 --key-length 8 {huge}");
    says(
        &line,
        "lyra2 derive: refused 5: the number of rows R must be 3 to 16384",
    );
    let line = format!("cost --key-length 8 --salt-length 8 --password-length 1 {huge}");
    says(
        &line,
        "lyra2 cost: refused 5: the number of rows R must be 3 to 16384",
    );
    let zero = DERIVE.replace("--columns 1", "--columns 0");
    says(
        &zero,
        "lyra2 derive: refused 6: the number of columns C must be 1 to 256",
    );
    let zero = DERIVE.replace("--time 1", "--time 256");
    says(
        &zero,
        "lyra2 derive: refused 4: the time cost T must be 0 to 255",
    );
}

/// The line with the numbers of the largest matrix.
fn largest(line: &str) -> String {
    line.replace("--rows 3", "--rows 16384")
        .replace("--columns 1", "--columns 256")
}

/// Also where there is no memory for the matrix, and the rotation is no part of the cost question.
#[test]
fn rounds_and_rotation_outside_their_limits() {
    let file = TemporaryFile::holding(b"an older file");
    let trial = format!(
        "{} --output {}",
        DERIVE.replace("derive", "trial"),
        file.name()
    );
    let check = format!("{CHECK} --key 00");
    let cost = format!("{COST} --password-length 1");
    let rounds = "refused 13: the rounds of a reduced call must be 1 to 12";
    let rotation = "refused 14: the rotation must be 1 to 11 words";
    for (options, words, commands) in [
        ("--rounds 0", rounds, &[DERIVE, &check, &trial, &cost][..]),
        ("--rounds 13", rounds, &[DERIVE, &check, &trial, &cost]),
        (
            "--rounds 13 --rotation 0",
            rounds,
            &[DERIVE, &check, &trial],
        ),
        ("--rotation 0", rotation, &[DERIVE, &check, &trial]),
        ("--rotation 12", rotation, &[DERIVE, &check, &trial]),
        (
            "--rotation 18446744073709551615",
            rotation,
            &[DERIVE, &check, &trial],
        ),
    ] {
        for command in commands {
            let name = common::words(command)[0];
            let due = format!("lyra2 {name}: {words}");
            says(&format!("{command} {options}"), &due);
            let arguments = format!("{} {options}", largest(command));
            let mut program = limited(200_000, &arguments);
            let ended = program.stdin(Stdio::null()).output().expect("a shell");
            assert_eq!(String::from_utf8_lossy(&ended.stderr), due + "\n");
            assert_eq!(ended.status.code(), Some(2));
        }
    }
    assert_eq!(file.bytes(), b"an older file");
    // What is refused before them is told before them.
    let columns = DERIVE.replace("--columns 1", "--columns 0 --rounds 0 --rotation 0");
    says(
        &columns,
        "lyra2 derive: refused 6: the number of columns C must be 1 to 256",
    );
}

/// A limit on the process' memory, since the machine may have enough for any matrix.
#[test]
fn memory_that_is_not_there() {
    let line = TemporaryFile::holding(b"$lyra2$t=1,r=16384,c=256$c2FsdHNhbHQ$AAAA");
    let login = format!("login --line-file {}", line.name());
    for arguments in [largest(DERIVE), largest(LINE), login] {
        let mut program = limited(200_000, &arguments);
        let ended = program.stdin(Stdio::null()).output().expect("a shell");
        let name = words(&arguments)[0];
        let line = format!("lyra2 {name}: no memory for the matrix of 402653184 bytes\n");
        assert_eq!(String::from_utf8_lossy(&ended.stderr), line);
        assert_eq!(ended.status.code(), Some(2));
    }
}

/// A file with a line, and the commands that print a key, a line and an answer.
fn printing() -> (TemporaryFile, [String; 3]) {
    let line = TemporaryFile::holding(b"$lyra2$t=1,r=3,c=1$c2FsdHNhbHQ$AAAA");
    let login = format!("login --line-file {}", line.name());
    (line, [DERIVE.to_string(), LINE.to_string(), login])
}

/// The program waits for the password while the reading end of its output is closed.
#[test]
fn an_output_that_nobody_reads() {
    let (_line, printing) = printing();
    for arguments in printing {
        let mut child = command()
            .args(words(&arguments))
            .stdin(Stdio::piped())
            .stdout(Stdio::piped())
            .stderr(Stdio::piped())
            .spawn()
            .expect("the program starts");
        drop(child.stdout.take());
        let mut input = child.stdin.take().expect("a pipe");
        input.write_all(b"pass").expect("the program reads");
        drop(input);
        let ended = child.wait_with_output().expect("the program ends");
        let line = "lyra2: standard output: Broken pipe (os error 32)\n";
        assert_eq!(String::from_utf8_lossy(&ended.stderr), line);
        assert_eq!(ended.status.code(), Some(2));
    }
}

#[test]
fn a_full_disk_and_no_standard_error() {
    let full = || std::fs::File::create("/dev/full").expect("the device");
    let (_line, printing) = printing();
    for arguments in printing {
        let mut program = command();
        program
            .args(words(&arguments))
            .stdin(Stdio::null())
            .stdout(full());
        let ended = program.output().expect("the program ends");
        assert_eq!(ended.status.code(), Some(2));
        let line = "lyra2: standard output: No space left on device (os error 28)\n";
        assert_eq!(String::from_utf8_lossy(&ended.stderr), line);
    }
    let status = command().arg("deduce").stderr(full()).status();
    assert_eq!(status.expect("the program ends").code(), Some(2));
}
