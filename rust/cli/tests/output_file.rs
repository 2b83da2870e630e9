//! The file that `trial` writes: whole or not at all, for its owner alone, and through no link.

mod common;

use common::end_state::EndState;
use common::folder::Folder;
use common::{command, lyra2, words, Run};
use std::fs;
use std::os::unix::fs::{symlink, PermissionsExt};
use std::os::unix::net::UnixListener;
use std::process::Command;

const OLD: &[u8] = &[7; 10_000];

/// The arguments of a trial with this output.
fn trial(folder: &Folder, output: &str, rows: u32) -> String {
    let costs = format!("--time 1 --rows {rows} --columns 1 --key-length 8");
    let salt = "--salt 0011223344556677";
    format!("trial {salt} {costs} --output {}/{output}", folder.name)
}

fn run_trial(folder: &Folder, output: &str) -> Run {
    lyra2(&words(&trial(folder, output, 3)), b"pass")
}

/// Whether the name is a regular file with an end state that its owner alone may read and write.
fn holds_end_state(folder: &Folder, name: &str) -> bool {
    let path = folder.path(name);
    let found = path.symlink_metadata().expect("the file is there");
    let bytes = fs::read(path).expect("the file can be read");
    found.is_file() && found.permissions().mode() & 0o7777 == 0o600 && EndState::read(&bytes).r == 3
}

#[test]
fn a_new_file_is_its_owners_alone() {
    let folder = Folder::new();
    run_trial(&folder, "end").result();
    assert!(holds_end_state(&folder, "end"));
    assert_eq!(folder.names(), ["end"]);
}

#[test]
fn a_file_that_others_may_read_is_replaced_by_one_that_they_may_not() {
    let folder = Folder::new();
    for mode in [0o644, 0o666, 0o777, 0o400] {
        fs::write(folder.path("end"), OLD).expect("a file");
        let rights = fs::Permissions::from_mode(mode);
        fs::set_permissions(folder.path("end"), rights).expect("our file");
        // Another name of the old file, which keeps what it held.
        fs::hard_link(folder.path("end"), folder.path("old")).expect("a second name");
        run_trial(&folder, "end").result();
        assert!(holds_end_state(&folder, "end"), "{mode:o}");
        assert_eq!(fs::read(folder.path("old")).expect("the old file"), OLD);
        assert_eq!(folder.names(), ["end", "old"]);
        fs::remove_file(folder.path("old")).expect("our file");
    }
}

#[test]
fn a_link_is_replaced_and_what_it_leads_to_is_left_alone() {
    let folder = Folder::new();
    fs::write(folder.path("file"), OLD).expect("a file");
    symlink("file", folder.path("end")).expect("a link");
    run_trial(&folder, "end").result();
    assert!(holds_end_state(&folder, "end"));
    assert_eq!(fs::read(folder.path("file")).expect("the file"), OLD);

    symlink("nothing", folder.path("lost")).expect("a link");
    run_trial(&folder, "lost").result();
    assert!(holds_end_state(&folder, "lost"));
    assert_eq!(folder.names(), ["end", "file", "lost"]);
}

/// Links stand in for the devices themselves, which a faulty program would replace for the whole machine.
#[test]
fn what_is_not_a_file_is_refused() {
    let folder = Folder::new();
    fs::create_dir(folder.path("folder")).expect("a folder");
    let _socket = UnixListener::bind(folder.path("socket")).expect("a socket");
    for (name, target) in [
        ("to-folder", "folder"),
        ("to-full", "/dev/full"),
        ("to-null", "/dev/null"),
        ("to-socket", "socket"),
        ("to-stdout", "/proc/self/fd/1"),
    ] {
        symlink(target, folder.path(name)).expect("a link");
    }
    let before = folder.names();
    for name in &before {
        let line = run_trial(&folder, name).failure();
        let place = format!("{}/{name}", folder.name);
        let due = format!("lyra2 trial: {place:?}: it is there and is not a regular file");
        assert_eq!(line, due);
        assert!(!folder.path(name).symlink_metadata().unwrap().is_file());
    }
    assert_eq!(folder.names(), before);
}

/// Standard output may itself be a regular file; its link under /proc is refused all the same.
#[test]
fn the_link_of_an_open_file_is_refused() {
    let folder = Folder::new();
    symlink("/proc/self/fd/1", folder.path("stdout")).expect("a link");
    fs::write(folder.path("password"), b"pass").expect("a file");
    let ended = command()
        .args(words(&trial(&folder, "stdout", 3)))
        .stdin(fs::File::open(folder.path("password")).expect("the file"))
        .stdout(fs::File::create(folder.path("out")).expect("a file"))
        .status();
    assert_eq!(ended.expect("the program starts").code(), Some(2));
    assert_eq!(fs::read(folder.path("out")).expect("the file"), b"");
    assert!(folder.path("stdout").is_symlink());
}

#[test]
fn a_refused_trial_leaves_what_was_there() {
    let folder = Folder::new();
    fs::write(folder.path("end"), OLD).expect("a file");
    let line = lyra2(&words(&trial(&folder, "end", 2)), b"pass").failure();
    let due = "lyra2 trial: refused 5: the number of rows R must be 3 to 16384";
    assert_eq!(line, due);
    assert_eq!(fs::read(folder.path("end")).expect("the file"), OLD);
    assert_eq!(folder.names(), ["end"]);
}

/// The program with files cut off at a few blocks, as a full disk would; the file of the trial is far longer.
fn on_a_full_disk(arguments: &str) -> Run {
    let mut shell = Command::new("sh");
    let script = format!("trap '' XFSZ && ulimit -f 4 && printf pass | \"$0\" {arguments}");
    let ended = shell
        .args(["-c", &script, env!("CARGO_BIN_EXE_lyra2")])
        .current_dir(env!("CARGO_TARGET_TMPDIR"))
        .output()
        .expect("a shell");
    Run::of(ended)
}

#[test]
fn a_write_that_fails_leaves_what_was_there_and_nothing_else() {
    let folder = Folder::new();
    let arguments = trial(&folder, "end", 1000);
    let due = format!(
        "lyra2 trial: \"{}/end\": File too large (os error 27)",
        folder.name
    );
    assert_eq!(on_a_full_disk(&arguments).failure(), due);
    assert_eq!(folder.names(), [""; 0]);

    fs::write(folder.path("end"), OLD).expect("a file");
    assert_eq!(on_a_full_disk(&arguments).failure(), due);
    assert_eq!(fs::read(folder.path("end")).expect("the file"), OLD);
    assert_eq!(folder.names(), ["end"]);
}
