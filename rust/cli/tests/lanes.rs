//! `--lanes`: what it goes with, what its refusals say, and keys made and checked with it.

mod common;

use common::{limited, lyra2, words, TemporaryFile};
use std::collections::BTreeSet;
use std::process::Stdio;

const DERIVE: &str = "derive --salt 0011223344556677 --time 1 --rows 8 --columns 3 --key-length 8";
const CHECK: &str =
    "check --salt 0011223344556677 --time 1 --rows 8 --columns 3 --key 0011223344556677";
const COST: &str =
    "cost --time 1 --rows 8 --columns 3 --key-length 8 --password-length 4 --salt-length 8";

/// A command line, cut at spaces, and what its line of failure has to say after the command's name.
#[track_caller]
fn says(line: &str, due: &str) {
    let found = lyra2(&words(line), b"pass").failure();
    let name = words(line)[0];
    assert_eq!(found, format!("lyra2 {name}: {due}"), "{line}");
}

#[test]
fn settings_are_not_given_beside_lanes() {
    let all = ["--rounds 1", "--rotation 2", "--mixer plain"];
    for (line, options) in [
        (DERIVE, &all[..]),
        (CHECK, &["--rounds 2", "--rotation 1", "--mixer blamka"]),
        (COST, &["--rounds 1", "--mixer plain"]),
    ] {
        let both = "are both given; lanes go with the usual rounds, rotation and mixer";
        for option in options {
            let name = words(option)[0];
            says(
                &format!("{line} --lanes 1 {option}"),
                &format!("--lanes and {name} {both}"),
            );
            says(
                &format!("{line} {option} --lanes 1"),
                &format!("{name} and --lanes {both}"),
            );
        }
        says(
            &format!("{line} --lanes 1 --lanes 1"),
            "--lanes is given twice",
        );
        says(&format!("{line} --lanes"), "--lanes has no value");
        says(
            &format!("{line} --lanes -1"),
            "--lanes: \"-1\" is not a number in decimal digits",
        );
    }
}

/// What is written to a file has no place for lanes, and the other commands have nothing to do with them.
#[test]
fn commands_without_lanes() {
    let trial = DERIVE.replace("derive", "trial") + " --output x";
    let costs = "--time 1 --rows 8 --columns 3 --key-length 8";
    for (name, line) in [
        ("trial", trial),
        ("line", format!("line {costs}")),
        ("login", "login --line-file x".to_string()),
        ("book add", format!("book add --book x --number 1 {costs}")),
        ("book check", "book check --book x --number 1".to_string()),
        (
            "choose",
            "choose --words 36 --budget 999 --key-length 8".to_string(),
        ),
        ("walk", "walk 8 3".to_string()),
        ("compare", "compare x y".to_string()),
    ] {
        let found = lyra2(&words(&format!("{line} --lanes 2")), b"pass").failure();
        let due = "unknown option \"--lanes\"; derive, check and cost alone have lanes";
        assert_eq!(found, format!("lyra2 {name}: {due}"));
    }
}

/// Each refusal says what would be accepted, for all three commands.
#[test]
fn refused_lanes() {
    let rows = |lanes: u32, near: &str| {
        let (step, least) = (2 * lanes, 4 * lanes);
        format!(
            "refused 20: with --lanes {lanes} the number of rows R must be a multiple of {step}, \
             at least {least}; {near}"
        )
    };
    let number = || "refused 20: the number of lanes P must be 1 to 8".to_string();
    for (options, due) in [
        ("--rows 3 --lanes 1", rows(1, "4 is nearest to 3")),
        ("--rows 5 --lanes 1", rows(1, "4 and 6 are nearest to 5")),
        ("--rows 4 --lanes 2", rows(2, "8 is nearest to 4")),
        ("--rows 10 --lanes 2", rows(2, "8 and 12 are nearest to 10")),
        ("--rows 9 --lanes 3", rows(3, "12 is nearest to 9")),
        (
            "--rows 20 --lanes 3",
            rows(3, "18 and 24 are nearest to 20"),
        ),
        (
            "--rows 16383 --lanes 3",
            rows(3, "16380 is nearest to 16383"),
        ),
        ("--rows 8 --lanes 4", rows(4, "16 is nearest to 8")),
        (
            "--rows 16383 --lanes 8",
            rows(8, "16368 and 16384 are nearest to 16383"),
        ),
        ("--rows 3 --lanes 8", rows(8, "32 is nearest to 3")),
        ("--rows 8 --lanes 0", number()),
        ("--rows 36 --lanes 9", number()),
        ("--rows 8 --lanes 18446744073709551615", number()),
    ] {
        for line in [DERIVE, CHECK, COST] {
            says(&line.replace("--rows 8", options), &due);
        }
    }
    for time in [0, 256] {
        for line in [DERIVE, CHECK, COST] {
            let line = line.replace("--time 1", &format!("--time {time} --lanes 0"));
            says(
                &line,
                "refused 4: with --lanes the time cost T must be 1 to 255",
            );
        }
    }
}

/// The rows that a refusal names are accepted.
#[test]
fn the_nearest_rows_are_accepted() {
    let cost = |rows: usize, lanes: usize| {
        let line = COST.replace("--rows 8", &format!("--rows {rows} --lanes {lanes}"));
        lyra2(&words(&line), b"")
    };
    let mut named = 0;
    for lanes in 1..=8 {
        for rows in [3, 2 * lanes + 1, 4 * lanes + 1, 6 * lanes - 1, 16_383] {
            let refused = cost(rows, lanes).failure();
            let (_, near) = refused.split_once("; ").expect("the nearest rows");
            let (near, _) = near.split_once(" nearest to ").expect("the nearest rows");
            for near in words(near).iter().filter_map(|word| word.parse().ok()) {
                cost(near, lanes).result();
                named += 1;
            }
        }
    }
    assert!(named > 8 * 5, "{named}");
}

/// A key is found again with its lanes and with no others, nor without.
#[test]
fn a_key_goes_with_its_lanes() {
    let derive = DERIVE.replace("--rows 8", "--rows 48");
    let ways = [
        "",
        "--lanes 1",
        "--lanes 2",
        "--lanes 3",
        "--lanes 4",
        "--lanes 6",
    ];
    let keys = ways.map(|way| {
        let line = format!("{derive} {way}");
        lyra2(&words(&line), b"pass").result()
    });
    assert_eq!(keys.iter().collect::<BTreeSet<_>>().len(), ways.len());
    for (made, key) in ways.iter().zip(&keys) {
        let file = TemporaryFile::holding(key.as_bytes());
        for way in ways {
            let check = CHECK.replace("--rows 8", "--rows 48").replace(
                "--key 0011223344556677",
                &format!("--key-file {} {way}", file.name()),
            );
            let run = lyra2(&words(&check), b"pass");
            let due = if way == *made { "yes\n" } else { "no\n" };
            assert_eq!(run.output, due, "{made:?} and {way:?}");
        }
    }
}

/// Five lines: there is no record.
#[test]
fn the_lines_of_a_cost() {
    let line = COST.replace("--rows 8", "--rows 100 --lanes 5");
    let output = lyra2(&words(&line), b"").result();
    let due =
        "full calls: 10\nreduced calls: 600\nrounds: 720\nmatrix bytes: 28800\nexpected seconds: ";
    assert!(output.starts_with(due), "{output}");
    assert_eq!(output.lines().count(), 5);
}

/// The estimate is made with fewer rows, which the lanes have to share too.
#[test]
fn the_cost_of_the_largest_matrices() {
    for lanes in 1..=8 {
        let rows = 16_384 - 16_384 % (2 * lanes);
        let line = COST
            .replace("--rows 8", &format!("--rows {rows} --lanes {lanes}"))
            .replace("--columns 3", "--columns 256");
        let output = lyra2(&words(&line), b"").result();
        let due = format!("matrix bytes: {}\nexpected seconds: ", 96 * rows * 256);
        assert!(output.contains(&due), "{output}");
    }
}

#[test]
fn lanes_without_memory() {
    let line = DERIVE
        .replace("--rows 8", "--rows 16384 --lanes 8")
        .replace("--columns 3", "--columns 256");
    let mut program = limited(200_000, &line);
    let ended = program.stdin(Stdio::null()).output().expect("a shell");
    let due = "lyra2 derive: no memory for the matrix of 402653184 bytes\n";
    assert_eq!(String::from_utf8_lossy(&ended.stderr), due);
    assert_eq!(ended.status.code(), Some(2));
}
