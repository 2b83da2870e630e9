//! The choice of costs: what is printed for a budget, the forms of sizes and times, what is refused, and that the printed
//! options are what `derive` takes. No test depends on how fast the machine is.

mod common;

use common::{hex, limited, lyra2, words};
use lyra2_reference::{derive, Inputs, Mixer, Settings};
use std::process::Stdio;

/// A refusal's number and sentence.
const NOTHING_FITS: &str = "16: no T from 1 on, R and C fit the matrix and the budget";
/// Options that leave out the budget alone; the smallest one has room for two full calls and six reduced ones.
const RIGHT: &str =
    "--words 36 --key-length 32 --password-length 8 --salt-length 8 --rounds 1 --column-counts 1";

/// The output of `choose` with these options.
fn choose(options: &str) -> String {
    lyra2(&words(&format!("choose {options}")), b"").result()
}

/// The line of failure of `choose` with these options.
fn fails(options: &str) -> String {
    lyra2(&words(&format!("choose {options}")), b"").failure()
}

/// What a line of the output says, without the note behind a number.
fn value<'a>(output: &'a str, name: &str) -> &'a str {
    let start = format!("{name}: ");
    let mut lines = output.lines().filter_map(|line| line.strip_prefix(&start));
    let value = lines.next().expect("the line is there");
    value.split(" (").next().expect("a first part")
}

fn number(output: &str, name: &str) -> u128 {
    value(output, name).parse().expect("a number")
}

#[test]
fn the_lines_of_a_choice() {
    let due = "\
time: 14
rows: 16384
columns: 4
matrix bytes: 6291456
allowed matrix bytes: 6291456
rounds: 983268
allowed rounds: 1000000
shortfall cells: 0
shortfall bytes: 0
promised: no T from 1 on, R and C that fit have more cells
options: --time 14 --rows 16384 --columns 4 --key-length 32
";
    let rest = "--budget 1000000 --key-length 32";
    for memory in ["--memory 6MiB", "--memory 6291456", "--words 786432"] {
        assert_eq!(choose(&format!("{memory} {rest}")), due);
    }
}

/// Options, and the shortfall and what is promised with them.
const SHORTFALLS: [(&str, u128, &str); 8] = [
    // 65,536 cells, of which three columns have 49,152.
    (
        "--memory 6MiB --column-counts 3",
        16_384,
        "more than 16384 cells more",
    ),
    (
        "--words 196620 --column-counts 1",
        1,
        "more than 1 cell more",
    ),
    (
        "--words 196620 --column-counts 4",
        1,
        "more than 1 cell more",
    ),
    ("--words 196620", 0, "more cells"),
    ("--words 100 --column-counts 1", 0, "more cells"),
    // One cell is missing for 256 columns.
    (
        "--words 50331647",
        255,
        "more cells, since all column counts were tried",
    ),
    (
        "--words 50331647 --column-counts 999",
        255,
        "more cells, since all column counts were tried",
    ),
    (
        "--words 50331647 --column-counts 255",
        16_383,
        "more than 16383 cells more",
    ),
];

/// Fewer column counts leave a shortfall, and so does a number of cells that no shape has.
#[test]
fn what_is_promised_of_a_shortfall() {
    for (options, cells, promise) in SHORTFALLS {
        let output = choose(&format!("{options} --budget 100000000 --key-length 32"));
        assert_eq!(number(&output, "shortfall cells"), cells, "{options}");
        assert_eq!(number(&output, "shortfall bytes"), 96 * cells, "{options}");
        let due = format!("no T from 1 on, R and C that fit have {promise}");
        assert_eq!(value(&output, "promised"), due, "{options}");
    }
}

/// Rounds and mixer go into the options where they are not the usual ones; the mixer changes nothing else.
#[test]
fn other_rounds_and_the_other_mixer() {
    let output = |options: &str| {
        choose(&format!(
            "--memory 1M --budget 50000 --key-length 24 {options}"
        ))
    };
    let plain = output("");
    let start = "options: --time 3 --rows 10922 --columns 1 --key-length 24";
    assert!(plain.ends_with(&format!("\n{start}\n")), "{plain}");
    assert_eq!(output("--rounds 1 --mixer plain"), plain);
    let other = plain.replace("24\n", "24 --mixer blamka\n");
    assert_eq!(output("--mixer blamka"), other);
    let twelve = output("--rounds 12 --mixer blamka");
    let due =
        "options: --time 1 --rows 2073 --columns 1 --key-length 24 --rounds 12 --mixer blamka\n";
    assert!(twelve.ends_with(due), "{twelve}");
}

#[test]
fn any_numbers() {
    let most = u64::MAX;
    let output = choose(&format!(
        "--words {most} --budget {most} --column-counts {most} --key-length 1"
    ));
    for (name, due) in [("time", 255), ("rows", 16_384), ("columns", 256)] {
        assert_eq!(number(&output, name), due);
    }
    assert_eq!(number(&output, "matrix bytes"), 402_653_184);
    assert_eq!(
        number(&output, "allowed matrix bytes"),
        8 * u128::from(most)
    );
    assert_eq!(number(&output, "allowed rounds"), u128::from(most));
    let output = choose(&format!("--memory {most} --budget {most} --key-length 1"));
    assert_eq!(number(&output, "allowed matrix bytes"), u128::from(most));
}

/// Where nothing is said of their lengths, the rounds are those of the longest password and salt, as `cost` has them.
#[test]
fn the_rounds_are_those_of_the_longest_password_and_salt() {
    let limits = "--memory 1M --budget 5000 --key-length 100";
    let longest = choose(limits);
    let lengths = "--password-length 1024 --salt-length 64";
    assert_eq!(choose(&format!("{limits} {lengths}")), longest);
    let options = value(&longest, "options");
    let cost = lyra2(&words(&format!("cost {options} {lengths}")), b"").result();
    for name in ["rounds", "matrix bytes"] {
        assert_eq!(value(&cost, name), value(&longest, name));
    }
    // What shorter ones leave over is spent on cells: 17 full calls are 204 rounds.
    let short = choose(&format!("{limits} --password-length 0 --salt-length 8"));
    assert_eq!(
        [&longest, &short].map(|output| number(output, "rows")),
        [2380, 2482]
    );
}

#[test]
fn sizes() {
    let cases = [
        ("288", 288),
        ("1K", 1024),
        ("1KiB", 1024),
        ("1kB", 1000),
        ("007M", 7 << 20),
        ("7MiB", 7 << 20),
        ("7MB", 7_000_000),
        ("2G", 2 << 30),
        ("2GiB", 2 << 30),
        ("2GB", 2_000_000_000),
        ("17179869183G", 17_179_869_183 << 30),
    ];
    for (size, bytes) in cases {
        let output = choose(&format!("--memory {size} --budget 9999 --key-length 32"));
        assert_eq!(number(&output, "allowed matrix bytes"), bytes, "{size}");
    }
}

/// A word has eight bytes, and a matrix whole words.
#[test]
fn the_smallest_size() {
    choose("--memory 288 --budget 9999 --key-length 32");
    let found = fails("--memory 287 --budget 9999 --key-length 32");
    assert_eq!(found, format!("lyra2 choose: refused {NOTHING_FITS}"));
}

#[test]
fn texts_that_are_no_sizes() {
    for size in [
        "", "K", "6X", "6k", "6kiB", "6mb", "6B", "6TB", "1.5G", "-6", "+6", "0x6", "6 M", "6MiB ",
        "٣",
    ] {
        let arguments = [
            "choose",
            "--memory",
            size,
            "--budget",
            "9",
            "--key-length",
            "32",
        ];
        let words = "is not a size such as 6291456, 96MiB or 1GB";
        let due = format!("lyra2 choose: --memory: {size:?} {words}");
        assert_eq!(lyra2(&arguments, b"").failure(), due);
    }
    for size in [
        "18446744073709551616",
        "17179869184G",
        "18446744073709552kB",
    ] {
        let found = fails(&format!("--memory {size} --budget 9 --key-length 32"));
        let due = format!("lyra2 choose: --memory: {size} has more than 64 bits");
        assert_eq!(found, due);
    }
}

/// So small a matrix takes the greatest T in far less than any of these times.
#[test]
fn times() {
    let due = "options: --time 255 --rows 3 --columns 1 --key-length 32";
    for time in [
        "5",
        "5s",
        "0.5",
        "0.5s",
        "05.50",
        "500ms",
        "500.5ms",
        "99999999999999999999",
    ] {
        let output = choose(&format!("--words 36 --seconds {time} --key-length 32"));
        assert_eq!(output.lines().last(), Some(due), "{time}");
    }
    let endless = format!("1{}", "0".repeat(400));
    for time in [
        "", "s", "ms", ".5", "5.", "1.2.3", "1e3", "-1", "+1", "inf", "NaN", "5m", "5 s", "1,5",
        &endless,
    ] {
        let arguments = [
            "choose",
            "--words",
            "36",
            "--seconds",
            time,
            "--key-length",
            "32",
        ];
        let due =
            format!("lyra2 choose: --seconds: {time:?} is not a time such as 2, 0.5 or 500ms");
        assert_eq!(lyra2(&arguments, b"").failure(), due);
    }
}

/// In no time nothing fits, which is told as that.
#[test]
fn no_time() {
    for time in ["0", "0.0s", "0ms", "0.000000000001"] {
        let found = fails(&format!("--memory 1M --seconds {time} --key-length 32"));
        assert_eq!(found, format!("lyra2 choose: refused {NOTHING_FITS}"));
    }
}

/// What is chosen for seconds is what is chosen for the rounds that they were taken for, and keeps to the limits.
#[test]
fn seconds_stand_for_rounds() {
    for options in [
        "--memory 2M --key-length 32",
        "--memory 300K --key-length 32 --rounds 3 --mixer blamka --column-counts 7",
        "--memory 1G --key-length 1 --password-length 0 --salt-length 8",
    ] {
        let by_time = choose(&format!("{options} --seconds 20ms"));
        let budget = value(&by_time, "allowed rounds");
        let by_rounds = choose(&format!("{options} --budget {budget}"));
        let lines: Vec<&str> = by_time.lines().collect();
        let is_time = |line: &&str| {
            ["rounds a second: ", "expected seconds: "]
                .iter()
                .any(|start| line.starts_with(start))
        };
        let (times, others): (Vec<&str>, Vec<&str>) = lines.into_iter().partition(is_time);
        assert_eq!(others.join("\n") + "\n", by_rounds);
        assert_eq!(times.len(), 2, "{by_time}");
        assert!(number(&by_time, "rounds") <= number(&by_time, "allowed rounds"));
        assert!(number(&by_time, "matrix bytes") <= number(&by_time, "allowed matrix bytes"));
        let expected: f64 = value(&by_time, "expected seconds")
            .parse()
            .expect("a number");
        assert!(expected > 0.0 && expected <= 0.0201, "{by_time}");
        assert!(number(&by_time, "rounds a second") > 0);
    }
}

#[test]
fn the_notes_of_the_times() {
    let output = choose("--words 36 --seconds 1 --key-length 32");
    let line = |start: &str| {
        output
            .lines()
            .find(|line| line.starts_with(start))
            .expect("a line")
    };
    let measured = " (of visits to a matrix of 288 bytes, measured just now)";
    assert!(line("rounds a second: ").ends_with(measured), "{output}");
    let estimate = line("expected seconds: ");
    assert!(estimate.contains(" (an estimate, of which 0.0"), "{output}");
    assert!(estimate.ends_with(" are for setting the matrix aside, filling and wiping it)"));
}

/// The printed options, with a salt, derive the second program's key.
#[test]
fn derive_takes_the_options() {
    let salt = b"0123456789abcdef";
    let cases = [
        ("--memory 100kB --budget 9000", Settings::USUAL),
        ("--memory 50kB --seconds 5ms", Settings::USUAL),
        (
            "--words 9999 --budget 20000 --rounds 2 --mixer blamka",
            Settings {
                rho: 2,
                mixer: Mixer::BlaMka,
                ..Settings::USUAL
            },
        ),
    ];
    for (options, settings) in cases {
        let output = choose(&format!("{options} --key-length 48"));
        let line = format!("derive --salt {} {}", hex(salt), value(&output, "options"));
        let printed = lyra2(&words(&line), b"password").result();
        let [t, r, c] = ["time", "rows", "columns"].map(|name| number(&output, name) as u64);
        let inputs = Inputs {
            password: b"password",
            salt,
            t,
            r,
            c,
            settings,
        };
        let (mut key, mut matrix) = ([0; 48], vec![0; 12 * (r * c) as usize]);
        derive(&inputs, &mut key, &mut matrix).expect("no check refuses");
        assert_eq!(printed, hex(&key) + "\n", "{options}");
        assert!(8 * matrix.len() as u128 <= number(&output, "allowed matrix bytes"));
    }
}

/// An option that is refused, and the number and the sentence, in the order of the checks.
const WRONG: [(&str, &str); 7] = [
    ("--key-length 0", "1: the key must be 1 to 1024 bytes long"),
    (
        "--password-length 1025",
        "2: the password must be 0 to 1024 bytes long",
    ),
    (
        "--salt-length 7",
        "3: the salt must be at least 8 bytes long",
    ),
    (
        "--salt-length 65",
        "10: the salt must be at most 64 bytes long",
    ),
    (
        "--rounds 13",
        "13: the rounds of a reduced call must be 1 to 12",
    ),
    (
        "--column-counts 0",
        "15: at least one column count must be tried",
    ),
    ("--words 35", NOTHING_FITS),
];

/// Each alone and with all that come after it, also where seconds would have to be measured.
#[test]
fn refusals_in_their_order() {
    for (place, limit) in
        (0..WRONG.len()).flat_map(|n| [(n, "--budget 1000"), (n, "--seconds 1000")])
    {
        for last in [place, WRONG.len() - 1] {
            let mut line = format!("{RIGHT} {limit}");
            // From the last on, so that of two salts the one that is due stays.
            for (option, _) in WRONG[place..=last].iter().rev() {
                line = with(&line, option);
            }
            let due = format!("lyra2 choose: refused {}", WRONG[place].1);
            assert_eq!(fails(&line), due, "{line}");
        }
    }
}

#[test]
fn the_smallest_budget() {
    choose(&with(RIGHT, "--budget 30"));
    let due = format!("lyra2 choose: refused {NOTHING_FITS}");
    assert_eq!(fails(&with(RIGHT, "--budget 29")), due);
}

/// The line with another value for an option, or with one option more.
fn with(line: &str, option: &str) -> String {
    let name = words(option)[0];
    let pairs: Vec<&str> = words(line);
    let others = pairs.chunks(2).filter(|pair| pair[0] != name);
    let others: Vec<String> = others.map(|pair| pair.join(" ")).collect();
    format!("{} {option}", others.join(" "))
}

/// A matrix that is chosen for seconds has to be had; one for a budget is not set aside.
#[test]
fn memory_that_is_not_there() {
    let options = "choose --memory 1GiB --key-length 32";
    let run = |limit: &str| {
        let mut program = limited(200_000, &format!("{options} {limit}"));
        let ended = program.stdin(Stdio::null()).output().expect("a shell");
        let error = String::from_utf8_lossy(&ended.stderr).to_string();
        (ended.status.code(), error)
    };
    assert_eq!(run("--budget 99999999999"), (Some(0), String::new()));
    let (status, error) = run("--seconds 100000");
    assert_eq!(status, Some(2));
    let number = error.strip_prefix("lyra2 choose: no memory for the matrix of ");
    let number = number.and_then(|rest| rest.strip_suffix(" bytes\n"));
    let bytes: u64 = number.expect("one line").parse().expect("a number");
    assert!(bytes > 100 << 20 && bytes <= 402_653_184, "{bytes}");
}

#[test]
fn the_help_says_what_is_counted() {
    let help = words(&lyra2(&["help", "choose"], b"").result()).join(" ");
    for due in [
        "All that a derivation needs is counted",
        "The seconds are an estimate",
        "password and salt are as long as can be",
        "none that fit have more cells at all",
        "[default: 1024]",
        "[default: 64]",
        "[default: 256]",
    ] {
        assert!(help.contains(due), "{due}");
    }
}
