//! The file of a book: changed whole or not at all, by one program at a time, with its rights kept.

mod common;

use common::book::{read, written, Account};
use common::folder::Folder;
use common::system_calls::{
    on_call, Answer, Which, CREATE, EXIT_GROUP, FCHMOD, FCHOWN, FLOCK, FSYNC, INPUT_OUTPUT,
    NOT_PERMITTED, OPENAT, READ_ONLY, RENAME, UNLINK, WRITE,
};
use common::{command, hex, Run};
use std::fs::{self, File, Permissions};
use std::os::unix::fs::{chown, symlink, MetadataExt, PermissionsExt};
use std::os::unix::net::UnixListener;
use std::os::unix::process::ExitStatusExt;
use std::process::{Child, Command, Stdio};
use std::time::{Duration, Instant};

const SALT: &[u8] = b"saltsalt";
const PASSWORD: &[u8] = b"pass";
/// The file that is written beside `book`.
const BESIDE: &str = ".book.lyra2-new";

/// The account that these tests add.
fn account(number: u32) -> Account {
    Account::of_password(number, PASSWORD, [0, 3, 1], SALT, 16)
}

/// A folder with the password, and a book of these accounts if there are any.
fn folder_with(accounts: &[Account]) -> Folder {
    let folder = Folder::new();
    fs::write(folder.path("password"), PASSWORD).expect("a file");
    if !accounts.is_empty() {
        fs::write(folder.path("book"), written(accounts)).expect("a file");
        let rights = Permissions::from_mode(0o600);
        fs::set_permissions(folder.path("book"), rights).expect("our file");
    }
    folder
}

/// The arguments that add an account to a book of this name.
fn arguments(folder: &Folder, book: &str, number: u32) -> String {
    let name = &folder.name;
    let costs = "--time 0 --rows 3 --columns 1 --key-length 16";
    let files = format!("--book {name}/{book} --password-file {name}/password");
    format!(
        "book add {files} --number {number} {costs} --salt {}",
        hex(SALT)
    )
}

fn adder(folder: &Folder, book: &str, number: u32) -> Command {
    let mut program = command();
    program
        .args(arguments(folder, book, number).split(' '))
        .stdin(Stdio::null());
    program
}

fn run(mut program: Command) -> Run {
    Run::of(program.output().expect("the program starts"))
}

fn add(folder: &Folder, number: u32) -> Run {
    run(adder(folder, "book", number))
}

fn book(folder: &Folder) -> Vec<Account> {
    read(&fs::read(folder.path("book")).expect("the book"))
}

/// The line of failure about the book of this name.
fn about(folder: &Folder, book: &str, words: &str) -> String {
    let name = format!("{}/{book}", folder.name);
    format!("lyra2 book add: {name:?}: {words}")
}

fn mode(folder: &Folder) -> u32 {
    let found = fs::symlink_metadata(folder.path("book")).expect("the book");
    found.permissions().mode() & 0o7777
}

#[test]
fn a_new_book_is_its_owners_alone_and_an_old_one_keeps_its_mode() {
    for umask in ["000", "022", "077"] {
        let folder = folder_with(&[]);
        let script = format!(
            "umask {umask} && exec \"$0\" {}",
            arguments(&folder, "book", 1)
        );
        let program = env!("CARGO_BIN_EXE_lyra2");
        let mut shell = Command::new("sh");
        shell.args(["-c", &script, program]);
        shell.current_dir(env!("CARGO_TARGET_TMPDIR"));
        run(shell).result();
        assert_eq!((mode(&folder), book(&folder)), (0o600, vec![account(1)]));
        for (number, rights) in [(2, 0o644), (3, 0o640), (4, 0o660), (5, 0o400), (6, 0o600)] {
            let path = folder.path("book");
            fs::set_permissions(&path, Permissions::from_mode(rights)).expect("our file");
            add(&folder, number).result();
            assert_eq!(mode(&folder), rights);
        }
        assert_eq!(book(&folder).len(), 6);
        assert_eq!(folder.names(), ["book", "password"]);
    }
}

/// Root alone can give a file to somebody else; then neither owner nor group changes, and where they cannot be kept
/// nothing does.
#[test]
fn an_old_book_keeps_its_owner_and_group() {
    let folder = folder_with(&[account(1)]);
    let path = folder.path("book");
    if chown(&path, Some(12_345), Some(54_321)).is_err() {
        return;
    }
    fs::set_permissions(&path, Permissions::from_mode(0o640)).expect("our file");
    add(&folder, 2).result();
    let found = fs::metadata(&path).expect("the book");
    assert_eq!((found.uid(), found.gid()), (12_345, 54_321));
    assert_eq!(mode(&folder), 0o640);
    let mut program = adder(&folder, "book", 3);
    let error = Answer::Error(NOT_PERMITTED);
    on_call(&mut program, FCHOWN, Which::All, error);
    let words = "its owner and group cannot be kept: Operation not permitted (os error 1)";
    assert_eq!(run(program).failure(), about(&folder, "book", words));
    assert_eq!(book(&folder), [account(1), account(2)]);
    assert_eq!(folder.names(), ["book", "password"]);
}

/// Another name of the old file keeps what it held.
#[test]
fn the_old_file_itself_is_not_written() {
    let folder = folder_with(&[account(1)]);
    fs::hard_link(folder.path("book"), folder.path("old")).expect("a second name");
    add(&folder, 2).result();
    let old = fs::read(folder.path("old")).expect("the old file");
    assert_eq!(read(&old), [account(1)]);
    assert_eq!(book(&folder), [account(1), account(2)]);
}

#[test]
fn what_is_not_a_file_is_not_changed() {
    let folder = folder_with(&[account(1)]);
    fs::create_dir(folder.path("folder")).expect("a folder");
    let _socket = UnixListener::bind(folder.path("socket")).expect("a socket");
    symlink("book", folder.path("link")).expect("a link");
    symlink("nothing", folder.path("lost")).expect("a link");
    let before = folder.names();
    let link = "a link; name the file that it leads to";
    let other = "it is there and is not a regular file";
    for (name, words) in [
        ("link", link),
        ("lost", link),
        ("folder", other),
        ("socket", other),
        ("folder/", "not the name of a file"),
        ("..", "not the name of a file"),
        ("nowhere/book", "No such file or directory (os error 2)"),
        ("password/book", "Not a directory (os error 20)"),
    ] {
        let line = run(adder(&folder, name, 2)).failure();
        assert_eq!(line, about(&folder, name, words));
        assert_eq!(
            (book(&folder), folder.names()),
            (vec![account(1)], before.clone())
        );
    }
}

/// A book is read through a link, but not from what is no file, which may never end.
#[test]
fn what_is_not_a_file_is_not_read() {
    let folder = folder_with(&[account(1)]);
    symlink("book", folder.path("link")).expect("a link");
    let _socket = UnixListener::bind(folder.path("socket")).expect("a socket");
    let list = |name: &str| {
        let mut program = command();
        program.args(["book", "list", "--book", name]);
        run(program)
    };
    let [link, socket] = ["link", "socket"].map(|name| format!("{}/{name}", folder.name));
    assert_eq!(list(&link).result(), account(1).line());
    for name in [&folder.name, &socket, "/dev/zero"] {
        let due = format!("lyra2 book list: {name:?}: not a regular file");
        assert_eq!(list(name).failure(), due);
    }
}

/// What may fail on the way, and how: a full disk, one that can only be read, a broken one.
#[test]
fn errors_on_the_way_leave_the_old_book() {
    let error = "Input/output error (os error 5)";
    // What goes wrong is written as well, and has another length.
    let size = written(&[account(1), account(2)]).len() as u32;
    for (call, which, number, words) in [
        (
            OPENAT,
            Which::WithBits(2, CREATE),
            READ_ONLY,
            "Read-only file system (os error 30)",
        ),
        (FLOCK, Which::All, INPUT_OUTPUT, error),
        (WRITE, Which::WithValue(2, size), INPUT_OUTPUT, error),
        (FCHMOD, Which::All, INPUT_OUTPUT, error),
        (FSYNC, Which::All, INPUT_OUTPUT, error),
        (RENAME, Which::All, INPUT_OUTPUT, error),
    ] {
        let folder = folder_with(&[account(1)]);
        let mut program = adder(&folder, "book", 2);
        on_call(&mut program, call, which, Answer::Error(number));
        assert_eq!(
            run(program).failure(),
            about(&folder, "book", words),
            "{call}"
        );
        assert_eq!(book(&folder), [account(1)], "{call}");
        assert_eq!(folder.names(), ["book", "password"], "{call}");
    }
}

/// The folder is synced after the change; a failure of that is told, and both may be on the disk.
#[test]
fn a_folder_that_cannot_be_synced() {
    let (mut before, mut after) = (0, 0);
    for descriptor in 3..10 {
        let folder = folder_with(&[account(1)]);
        let mut program = adder(&folder, "book", 2);
        let which = Which::WithValue(0, descriptor);
        on_call(&mut program, FSYNC, which, Answer::Error(INPUT_OUTPUT));
        let found = run(program);
        let count = book(&folder).len();
        match (found.status, count) {
            (Some(0), 2) => continue,
            (Some(2), 1) => before += 1,
            (Some(2), 2) => {
                let words = "changed, but after a loss of power it may be as before: Input/output error (os error 5)";
                assert_eq!(found.failure(), about(&folder, "book", words));
                after += 1;
            }
            _ => panic!("{found:?}, {count} accounts"),
        }
        assert_eq!(folder.names(), ["book", "password"]);
    }
    assert_eq!((before, after), (1, 1));
}

#[test]
fn a_full_disk_leaves_the_old_book() {
    let accounts: Vec<Account> = (0..100).map(account).collect();
    let folder = folder_with(&accounts);
    let program = env!("CARGO_BIN_EXE_lyra2");
    let arguments = arguments(&folder, "book", 1000);
    let script = format!("trap '' XFSZ && ulimit -f 4 && exec \"$0\" {arguments}");
    let mut shell = Command::new("sh");
    shell.args(["-c", &script, program]);
    shell.current_dir(env!("CARGO_TARGET_TMPDIR"));
    let line = run(shell).failure();
    assert_eq!(line, about(&folder, "book", "File too large (os error 27)"));
    assert_eq!(book(&folder), accounts);
    assert_eq!(folder.names(), ["book", "password"]);
}

/// A program that is killed at any of its calls leaves the old book or the new one; the next one finds its way.
#[test]
fn a_program_killed_at_a_call_leaves_a_whole_book() {
    for (call, due) in [
        (FLOCK, 1),
        (UNLINK, 1),
        (WRITE, 1),
        (FCHMOD, 1),
        (FSYNC, 1),
        (RENAME, 1),
        (EXIT_GROUP, 2),
    ] {
        let folder = folder_with(&[account(1)]);
        let mut program = adder(&folder, "book", 2);
        on_call(&mut program, call, Which::All, Answer::Death);
        let ended = program.output().expect("the program starts");
        assert!(ended.status.signal().is_some(), "{call}");
        let found = book(&folder);
        assert_eq!(found, [account(1), account(2)][..due], "{call}");
        // What is left beside it is for its owner alone.
        if let Ok(left) = fs::metadata(folder.path(BESIDE)) {
            assert_eq!(left.permissions().mode() & 0o077, 0, "{call}");
        }
        add(&folder, 3).result();
        let last = [&found[..], &[account(3)]].concat();
        assert_eq!(book(&folder), last, "{call}");
        assert_eq!(folder.names(), ["book", "password"], "{call}");
    }
}

#[test]
fn a_program_killed_at_any_moment_leaves_a_whole_book() {
    let folder = folder_with(&[account(0)]);
    for moment in 1..=100 {
        let before = book(&folder);
        let mut child = adder(&folder, "book", moment)
            .stdout(Stdio::null())
            .spawn()
            .expect("the program starts");
        std::thread::sleep(Duration::from_micros(60 * u64::from(moment)));
        child.kill().expect("a process of ours");
        child.wait().expect("it ends");
        let after = book(&folder);
        let new = [&before[..], &[account(moment)]].concat();
        assert!(after == before || after == new, "{moment}");
    }
    add(&folder, 1000).result();
    assert_eq!(book(&folder).last(), Some(&account(1000)));
    assert_eq!(folder.names(), ["book", "password"]);
}

/// Starts a program for each number at once, and waits for all.
fn at_once(numbers: std::ops::Range<u32>, program: impl Fn(u32) -> Command) {
    let start = |number| program(number).stdout(Stdio::null()).spawn();
    let children: Vec<Child> = numbers
        .map(|number| start(number).expect("the program starts"))
        .collect();
    for mut child in children {
        assert!(child.wait().expect("it ends").success());
    }
}

#[test]
fn programs_at_once_lose_no_account() {
    let folder = folder_with(&[]);
    for round in 0..5 {
        let numbers = 8 * round..8 * (round + 1);
        at_once(numbers, |number| adder(&folder, "book", number));
        let mut found: Vec<u32> = book(&folder).iter().map(|account| account.number).collect();
        found.sort();
        assert!(found.iter().copied().eq(0..8 * (round + 1)), "{found:?}");
    }
    let remover = |number: u32| {
        let mut program = command();
        let (name, number) = (format!("{}/book", folder.name), number.to_string());
        program.args(["book", "remove", "--book", &name, "--number", &number]);
        program
    };
    at_once(0..40, remover);
    assert_eq!(book(&folder), []);
    assert_eq!(folder.names(), ["book", "password"]);
}

/// The number of the system call that a process waits in.
fn waits_in(process: u32) -> Option<u32> {
    let call = fs::read_to_string(format!("/proc/{process}/syscall")).ok()?;
    call.split(' ').next()?.parse().ok()
}

/// Whoever has the new file locked is waited for; what it has put in the book meanwhile is not lost.
#[test]
fn another_program_is_waited_for() {
    let folder = folder_with(&[account(1)]);
    let other = File::create(folder.path(BESIDE)).expect("a file");
    other.lock().expect("nobody else has it");
    let mut child = adder(&folder, "book", 3)
        .stdout(Stdio::null())
        .spawn()
        .expect("the program starts");
    let began = Instant::now();
    while waits_in(child.id()) != Some(FLOCK) {
        assert!(
            began.elapsed() < Duration::from_secs(60),
            "it does not wait"
        );
        std::thread::sleep(Duration::from_millis(10));
    }
    assert_eq!(book(&folder), [account(1)]);
    let new = written(&[account(1), account(2)]);
    fs::write(folder.path(BESIDE), new).expect("our file");
    fs::rename(folder.path(BESIDE), folder.path("book")).expect("our files");
    drop(other);
    assert!(child.wait().expect("it ends").success());
    assert_eq!(book(&folder), [1, 2, 3].map(account));
    assert_eq!(folder.names(), ["book", "password"]);
}

#[test]
fn what_a_killed_program_left_is_removed_and_nothing_else_is() {
    let folder = folder_with(&[account(1)]);
    fs::write(folder.path(BESIDE), b"half a book").expect("a file");
    add(&folder, 2).result();
    assert_eq!(book(&folder), [account(1), account(2)]);
    assert_eq!(folder.names(), ["book", "password"]);
    // A link in its place is not followed, and a folder not removed.
    fs::write(folder.path("file"), b"somebody's").expect("a file");
    symlink("file", folder.path(BESIDE)).expect("a link");
    let beside = format!("{:?}", format!("{}/{BESIDE}", folder.name));
    let words = format!("{beside}: Too many levels of symbolic links (os error 40)");
    assert_eq!(add(&folder, 3).failure(), about(&folder, "book", &words));
    fs::remove_file(folder.path(BESIDE)).expect("our link");
    fs::create_dir(folder.path(BESIDE)).expect("a folder");
    let words = format!("{beside}: Is a directory (os error 21)");
    assert_eq!(add(&folder, 3).failure(), about(&folder, "book", &words));
    assert_eq!(
        fs::read(folder.path("file")).expect("the file"),
        b"somebody's"
    );
    assert_eq!(book(&folder), [account(1), account(2)]);
}
