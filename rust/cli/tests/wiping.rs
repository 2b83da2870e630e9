//! What is left of the password, the key, the state and the matrix in the program's memory when it prints its result.
//!
//! The program's output goes to a pipe that is full, so that it waits there with its result in hand, and its memory
//! is searched meanwhile. The result's text must be found, or for an answer that is too short an argument, which shows
//! that the search sees something.

mod common;

use common::book::{written, Account};
use common::line::{encode, Line};
use common::terminal::Terminal;
use common::{command, hex, words, TemporaryFile};
use lyra2_reference::vectors::write::mixer_name;
use lyra2_reference::{derive_recorded, lanes, Inputs, LaneInputs, Mixer, Settings};
use std::fs::File;
use std::io::{PipeReader, PipeWriter, Read, Seek, SeekFrom, Write};
use std::process::{Command, Stdio};
use std::time::{Duration, Instant};

const MIXERS: [Mixer; 2] = [Mixer::Plain, Mixer::BlaMka];
const PASSWORD: &[u8] = b"a password to search for";
/// Words of the matrix and of the record with T = 1, R = 16 and C = 4.
const MATRIX_WORDS: usize = 12 * 16 * 4;
const RECORD_WORDS: usize = 16 * (1 + 4);
/// What a pipe holds on Linux.
const PIPE_BYTES: usize = 1 << 16;
/// How long the program may take to come to its output.
const PATIENCE: Duration = Duration::from_secs(20);

/// The readable parts of a process' memory. A part may be gone before it is read.
fn memory(process: u32) -> Vec<Vec<u8>> {
    let maps = std::fs::read_to_string(format!("/proc/{process}/maps")).expect("a process of ours");
    let mut file = File::open(format!("/proc/{process}/mem")).expect("a process of ours");
    let mut parts = Vec::new();
    for line in maps.lines() {
        let (range, rights) = line.split_once(' ').expect("a range and its rights");
        let (start, end) = range.split_once('-').expect("two addresses");
        let [start, end] =
            [start, end].map(|text| u64::from_str_radix(text, 16).expect("an address"));
        let mut part = vec![0; (end - start) as usize];
        let is_read = rights.starts_with('r')
            && file.seek(SeekFrom::Start(start)).is_ok()
            && file.read_exact(&mut part).is_ok();
        parts.extend(is_read.then_some(part));
    }
    parts
}

fn holds(memory: &[Vec<u8>], wanted: &[u8]) -> bool {
    let is_in = |part: &Vec<u8>| part.windows(wanted.len()).any(|window| window == wanted);
    memory.iter().any(is_in)
}

/// What a derivation works on and gives, as bytes. The recorded one keeps the matrix that the plain one wipes.
struct Due {
    key: [u8; 64],
    /// Of every lane.
    states: Vec<Vec<u8>>,
    matrix: Vec<u8>,
}

fn bytes(words: &[u64]) -> Vec<u8> {
    words.iter().flat_map(|word| word.to_le_bytes()).collect()
}

impl Due {
    fn with(mixer: Mixer) -> Due {
        let inputs = Inputs {
            password: PASSWORD,
            salt: b"saltsalt",
            t: 1,
            r: 16,
            c: 4,
            settings: Settings {
                mixer,
                ..Settings::USUAL
            },
        };
        let (mut key, mut matrix) = ([0; 64], [0; MATRIX_WORDS]);
        let recorded = derive_recorded(&inputs, &mut key, &mut matrix, &mut [0; RECORD_WORDS]);
        let state = recorded.expect("no check refuses").state;
        Due {
            key,
            states: vec![bytes(&state)],
            matrix: bytes(&matrix),
        }
    }

    fn with_lanes(p: u64) -> Due {
        let inputs = LaneInputs {
            password: PASSWORD,
            salt: b"saltsalt",
            t: 1,
            r: 16,
            c: 4,
            p,
        };
        let (mut key, mut matrix) = ([0; 64], [0; MATRIX_WORDS]);
        let end = lanes::run(&inputs, &mut key, &mut matrix, &mut lanes::in_turn);
        let states = end.expect("no check refuses").states;
        Due {
            key,
            states: states.iter().map(|state| bytes(state)).collect(),
            matrix: bytes(&matrix),
        }
    }
}

/// A pipe that is full as long as its reader is kept.
fn full_pipe() -> (PipeReader, PipeWriter) {
    let (reader, mut writer) = std::io::pipe().expect("a pipe");
    writer.write_all(&[0; PIPE_BYTES]).expect("an empty pipe");
    (reader, writer)
}

/// The arguments of a command that derives.
fn line(command: &str, options: &str) -> String {
    let costs = "--time 1 --rows 16 --columns 4 --key-length 64";
    format!("{command} --salt {} {costs} {options}", hex(b"saltsalt"))
}

/// Runs a command into a full pipe and returns what is left in its memory when it prints this text.
fn left_by(line: &str, input: &[u8], text: &str) -> Vec<&'static str> {
    left_by_mixer(Mixer::Plain, line, input, text)
}

fn left_by_mixer(mixer: Mixer, line: &str, input: &[u8], text: &str) -> Vec<&'static str> {
    left_of(&Due::with(mixer), line, input, text)
}

fn left_of(due: &Due, line: &str, input: &[u8], text: &str) -> Vec<&'static str> {
    let (reader, writer) = full_pipe();
    let mut program = command();
    program
        .args(words(line))
        .stdin(Stdio::piped())
        .stdout(writer);
    let mut child = program.spawn().expect("the program starts");
    let mut pipe = child.stdin.take().expect("a pipe");
    pipe.write_all(input).expect("the program reads");
    drop(pipe);
    let left = traces_left(child.id(), due, text);
    child.kill().expect("a process of ours");
    child.wait().expect("the program ends");
    drop(reader);
    left
}

/// Whether a process waits to write to its standard output; the number of the call is that of x86-64.
fn waits_to_print(process: u32) -> bool {
    let call = std::fs::read_to_string(format!("/proc/{process}/syscall"));
    call.is_ok_and(|call| call.starts_with("1 0x1 "))
}

/// The names of the traces that stay in the memory of a process that waits to print and holds this text. A form of the
/// key that is in the text stays, of course.
fn traces_left(process: u32, due: &Due, text: &str) -> Vec<&'static str> {
    let Due {
        key,
        states,
        matrix,
    } = due;
    let (digits, letters) = (hex(&key[..30]), encode(&key[..30]));
    // The library holds what it works on in words, so a part of the password or the key is searched for.
    let mut traces = vec![
        ("the password", &PASSWORD[..16]),
        ("the key", &key[..16]),
        ("the key in hexadecimal", digits.as_bytes()),
        ("the key in base 64", letters.as_bytes()),
        ("the matrix's start", &matrix[..24]),
        ("the matrix's end", &matrix[matrix.len() - 24..]),
    ];
    for state in states {
        traces.push(("a state's start", &state[..24]));
        traces.push(("a state's end", &state[state.len() - 24..]));
    }
    traces.retain(|(_, trace)| !holds(&[text.into()], trace));
    let began = Instant::now();
    let mut left = vec!["no text"];
    while !left.is_empty() && began.elapsed() < PATIENCE {
        std::thread::sleep(Duration::from_millis(50));
        if !waits_to_print(process) {
            continue;
        }
        let memory = memory(process);
        if holds(&memory, text.as_bytes()) {
            let stays = traces.iter().filter(|(_, trace)| holds(&memory, trace));
            left = stays.map(|(name, _)| *name).collect();
        }
    }
    left
}

const NOTHING: [&str; 0] = [];

fn key_text(mixer: Mixer) -> String {
    hex(&Due::with(mixer).key)
}

#[test]
fn of_a_password_from_standard_input_nothing_is_left() {
    for mixer in MIXERS {
        let line = line("derive", &format!("--mixer {}", mixer_name(mixer)));
        let left = left_by_mixer(mixer, &line, PASSWORD, &key_text(mixer));
        assert_eq!(left, NOTHING, "{mixer:?}");
    }
}

#[test]
fn of_a_password_from_a_file_nothing_is_left() {
    let file = TemporaryFile::holding(PASSWORD);
    let line = line("derive", &format!("--password-file {}", file.name()));
    assert_eq!(left_by(&line, b"", &key_text(Mixer::Plain)), NOTHING);
}

#[test]
fn of_lanes_nothing_is_left() {
    for p in [1, 2, 4] {
        let due = Due::with_lanes(p);
        let lanes = format!("--lanes {p}");
        let key = hex(&due.key);
        let left = left_of(&due, &line("derive", &lanes), PASSWORD, &key);
        assert_eq!(left, NOTHING, "{p}");
        let file = TemporaryFile::holding(key.as_bytes());
        let check = line("check", &format!("{lanes} --key-file {}", file.name()));
        let check = check.replace("--key-length 64", "");
        assert_eq!(left_of(&due, &check, PASSWORD, file.name()), NOTHING, "{p}");
    }
}

/// The limits of a process that started without one on core dumps.
#[test]
fn no_core_dump_is_written() {
    let program = env!("CARGO_BIN_EXE_lyra2");
    let script = format!(
        "ulimit -c unlimited; exec '{program}' {}",
        line("derive", "")
    );
    let mut child = Command::new("sh")
        .args(["-c", &script])
        .stdin(Stdio::piped())
        .stdout(Stdio::null())
        .spawn()
        .expect("a shell");
    let limits = format!("/proc/{}/limits", child.id());
    let is_set = || {
        let limits = std::fs::read_to_string(&limits).expect("a process of ours");
        let line = limits
            .lines()
            .find_map(|line| line.strip_prefix("Max core file size"));
        words(line.expect("a limit")) == ["0", "0", "bytes"]
    };
    // The program waits for its password.
    let began = Instant::now();
    while !is_set() {
        assert!(began.elapsed() < PATIENCE, "core dumps are allowed");
        std::thread::sleep(Duration::from_millis(20));
    }
    child.kill().expect("a process of ours");
    child.wait().expect("the program ends");
}

/// A trial keeps state and matrix, until they are in its file.
#[test]
fn of_a_trial_nothing_is_left() {
    let bytes = 8 * (12 + 16 + MATRIX_WORDS + RECORD_WORDS + 1);
    let text = format!("{bytes} bytes, checksum ");
    for mixer in MIXERS {
        let (file, name) = (TemporaryFile::new(), mixer_name(mixer));
        let options = format!("--mixer {name} --output {}", file.name());
        let left = left_by_mixer(mixer, &line("trial", &options), PASSWORD, &text);
        assert_eq!(left, NOTHING, "{mixer:?}");
    }
}

/// The line that is made of the password.
fn login_line() -> String {
    Line::of_password(PASSWORD, [1, 16, 4], b"saltsalt", 64).write()
}

#[test]
fn of_a_line_nothing_but_its_text_is_left() {
    let line = line("line", "");
    assert_eq!(left_by(&line, PASSWORD, &login_line()), NOTHING);
}

#[test]
fn of_a_login_nothing_is_left() {
    let [line, password] = [login_line().as_bytes(), PASSWORD].map(TemporaryFile::holding);
    let by_line_file = format!("login --line-file {}", line.name());
    assert_eq!(left_by(&by_line_file, PASSWORD, line.name()), NOTHING);
    let by_password_file = format!("login --password-file {}", password.name());
    let input = login_line() + "\n";
    let left = left_by(&by_password_file, input.as_bytes(), password.name());
    assert_eq!(left, NOTHING);
}

/// The account's own key is in the book while it is added or checked, and so are its neighbours'.
#[test]
fn of_a_book_nothing_is_left() {
    let file = TemporaryFile::new();
    let of_book = format!("--book {} --number 7", file.name());
    let add = line("book add", &of_book);
    assert_eq!(left_by(&add, PASSWORD, "account 7 added\n"), NOTHING);
    let check = format!("book check {of_book}");
    assert_eq!(left_by(&check, PASSWORD, file.name()), NOTHING);
    let list = format!("book list --book {}", file.name());
    assert_eq!(left_by(&list, b"", "account 7: time 1"), NOTHING);
    let remove = format!("book remove {of_book}");
    assert_eq!(left_by(&remove, b"", "account 7 removed\n"), NOTHING);
}

/// While the program waits for a password it holds the book, and the system has as much locked for it.
#[test]
fn a_book_is_kept_from_swapping() {
    let accounts: Vec<Account> = (0..500)
        .map(|number| Account::of_no_password(number, 64, 1024))
        .collect();
    let book = written(&accounts);
    let file = TemporaryFile::holding(&book);
    let mut child = command()
        .args(words(&format!(
            "book check --number 1 --book {}",
            file.name()
        )))
        .stdin(Stdio::piped())
        .spawn()
        .expect("the program starts");
    let status = format!("/proc/{}/status", child.id());
    let locked = || {
        let status = std::fs::read_to_string(&status).expect("a process of ours");
        let line = status.lines().find_map(|line| line.strip_prefix("VmLck:"));
        let number = words(line.expect("the kernel tells it"))[0].parse::<usize>();
        1024 * number.expect("a number")
    };
    let began = Instant::now();
    while locked() < book.len() {
        assert!(began.elapsed() < PATIENCE, "{} bytes locked", locked());
        std::thread::sleep(Duration::from_millis(20));
    }
    child.kill().expect("a process of ours");
    child.wait().expect("the program ends");
}

/// The shell says its number and becomes the program, whose output is the full pipe.
#[test]
fn of_a_typed_password_nothing_is_left() {
    let (reader, writer) = full_pipe();
    let program = env!("CARGO_BIN_EXE_lyra2");
    let line = line("derive", ">&3");
    let command = format!("echo \"<$$>\"; exec '{program}' {line}");
    let mut terminal = Terminal::start(&command, Stdio::from(writer));
    for prompt in ["Password: ", "The same again: "] {
        terminal.wait_for(prompt);
        terminal.type_in(&[PASSWORD, b"\n"].concat());
    }
    let shown = terminal.shown();
    let (_, number) = shown.split_once('<').expect("a number");
    let (number, _) = number.split_once('>').expect("a number");
    let process = number.parse().expect("a number");
    let (due, text) = (Due::with(Mixer::Plain), key_text(Mixer::Plain));
    assert_eq!(traces_left(process, &due, &text), NOTHING);
    drop((terminal, reader));
}
