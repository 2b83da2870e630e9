//! The cost in words, and the help.

mod common;

use common::{lyra2, words};

/// The commands, and after each its own.
const COMMANDS: [&str; 16] = [
    "derive",
    "check",
    "line",
    "login",
    "book",
    "book list",
    "book add",
    "book remove",
    "book check",
    "cost",
    "choose",
    "walk",
    "trial",
    "compare",
    "completions",
    "manual",
];

/// The help of a command.
fn help_of(command: &str) -> String {
    lyra2(&words(&format!("help {command}")), b"").result()
}

fn cost(time: usize, rows: usize, columns: usize) -> String {
    cost_with(time, rows, columns, "")
}

fn cost_with(time: usize, rows: usize, columns: usize, options: &str) -> String {
    let lengths = "--key-length 32 --password-length 12 --salt-length 16";
    let line = format!("cost --time {time} --rows {rows} --columns {columns} {lengths} {options}");
    lyra2(&words(&line), b"").result()
}

/// The estimate of a cost.
fn seconds(output: &str) -> f64 {
    let last = output.lines().last().expect("six lines");
    let rest = last
        .strip_prefix("expected seconds: ")
        .expect("the last line");
    let (number, note) = rest.split_once(' ').expect("a note");
    assert_eq!(note, "(an estimate, from a derivation timed just now)");
    number.parse().expect("a number")
}

#[test]
fn the_lines_of_a_cost() {
    let output = cost(2, 100, 10);
    let lines: Vec<&str> = output.lines().take(5).collect();
    let due = [
        "full calls: 2",
        "reduced calls: 3000",
        "rounds: 3024",
        "matrix bytes: 96000",
        "record bytes: 17600",
    ];
    assert_eq!(lines, due);
    assert_eq!(output.lines().count(), 6);
}

#[test]
fn the_cost_with_other_rounds() {
    for (rounds, due) in [(1, 3024), (2, 6024), (12, 36_024)] {
        let output = cost_with(2, 100, 10, &format!("--rounds {rounds}"));
        let lines: Vec<&str> = output.lines().take(3).collect();
        let due = format!("rounds: {due}");
        assert_eq!(lines, ["full calls: 2", "reduced calls: 3000", &due]);
    }
}

#[test]
fn the_mixer_changes_no_count() {
    let counts = |options: &str| {
        let output = cost_with(2, 100, 10, options);
        let lines: Vec<String> = output.lines().take(5).map(str::to_string).collect();
        lines
    };
    let usual = counts("");
    for mixer in ["plain", "blamka"] {
        assert_eq!(counts(&format!("--mixer {mixer}")), usual, "{mixer}");
    }
}

#[test]
fn the_cost_of_setup_alone() {
    let output = cost(0, 100, 10);
    let due =
        "full calls: 2\nreduced calls: 1000\nrounds: 1024\nmatrix bytes: 96000\nrecord bytes: 0\n";
    assert!(output.starts_with(due), "{output}");
    let seconds = seconds(&output);
    assert!(seconds > 0.0 && seconds < 1.0, "{seconds}");
}

/// Two thousand times as many reduced calls are expected to take longer. The bounds are wide, since the machine
/// may be busy.
#[test]
fn the_estimate_grows_with_the_calls() {
    let [small, large] = [cost(1, 64, 16), cost(255, 1024, 16)].map(|output| seconds(&output));
    assert!(small > 0.0 && small < 1.0, "{small}");
    assert!(large > 2.0 * small && large < 2048.0, "{small} and {large}");
}

/// The estimate of a derivation of less than a millisecond, which is mostly left alone on a busy machine; of some turns the
/// shortest counts.
fn shortest(options: &str) -> f64 {
    let turns = [(); 5].map(|()| seconds(&cost_with(4, 64, 16, options)));
    turns.into_iter().fold(f64::INFINITY, f64::min)
}

/// Twelve rounds take longer than one, but not twelve times as long: the memory is the same.
#[test]
fn the_estimate_grows_with_the_rounds() {
    let [one, twelve] = ["--rounds 1", "--rounds 12"].map(shortest);
    assert!(
        twelve > 2.0 * one && twelve < 20.0 * one,
        "{one} and {twelve}"
    );
}

#[test]
fn every_command_has_its_help_three_ways() {
    let list = lyra2(&["help"], b"").result();
    for flag in ["--help", "-h"] {
        assert_eq!(lyra2(&[flag], b"").result(), list);
    }
    for command in COMMANDS {
        let (list, name) = match command.split_once(' ') {
            Some((above, name)) => (help_of(above), name),
            None => (list.clone(), command),
        };
        assert!(list.contains(&format!("\n  {name} ")), "{command}");
        let help = help_of(command);
        let usage = format!("\n\nUsage: lyra2 {command}");
        assert!(help.contains(&usage), "{help}");
        assert!(help.contains("Exit status: 0 for"), "{help}");
        for flag in ["--help", "-h"] {
            let line = format!("{command} {flag}");
            assert_eq!(lyra2(&words(&line), b"").result(), help);
        }
    }
}

/// Each option that a help names is one that the command knows, and the other way round.
#[test]
fn the_help_names_the_options_that_there_are() {
    let options =
        "password-file salt salt-file time rows columns rounds rotation mixer key-length key \
                   key-file output password-length salt-length line-file memory words budget seconds column-counts book number lanes";
    for command in COMMANDS {
        let help = help_of(command);
        for option in words(options) {
            let named = help.contains(&format!("\n      --{option} "));
            let line = format!("{command} --{option}");
            let line = lyra2(&words(&line), b"").failure();
            let known = line == format!("lyra2 {command}: --{option} has no value");
            assert_eq!(named, known, "{command} --{option}: {line}");
        }
    }
}

/// The names of the options that a help has.
fn options_of(help: &str) -> Vec<&str> {
    let lines = help.lines().map(str::trim_start);
    let options = lines.filter(|line| line.starts_with("--"));
    options.filter_map(|line| line.split(' ').next()).collect()
}

#[test]
fn the_manual_page_has_what_the_help_has() {
    let page = lyra2(&["manual"], b"").result().replace("\\-", "-");
    let parts: Vec<&str> = page.split("\n.SS ").collect();
    assert_eq!(parts.len(), 1 + COMMANDS.len());
    for (command, part) in COMMANDS.into_iter().zip(&parts[1..]) {
        assert!(part.starts_with(&format!("{command}\n")), "{part}");
        let help = help_of(command);
        let summary = help.lines().next().expect("a first line");
        assert!(part.contains(&format!("\n{summary}.\n")), "{part}");
        for option in options_of(&help) {
            assert!(part.contains(&format!("\n\\fB{option}\\fR ")), "{option}");
        }
    }
    assert!(options_of(&help_of("check")).contains(&"--key-file"));
    assert!(options_of(&help_of("book add")).contains(&"--number"));
}

/// Wherever there is a default, help and manual page say it.
#[test]
fn the_usual_settings_are_said() {
    let page = lyra2(&["manual"], b"").result().replace("\\-", "-");
    let parts: Vec<&str> = page.split("\n.SS ").skip(1).collect();
    let (rounds, rotation) = ("1 to 12 [default: 1]", "1 to 11 [default: 2]");
    let (mixers, mixer) = ("The mixer, plain or blamka,", "[default: plain]");
    for (command, part) in COMMANDS.into_iter().zip(parts) {
        let help = help_of(command);
        let has_all = ["derive", "check", "trial"].contains(&command);
        for text in [help.as_str(), part] {
            // Without the ends of lines, which depend on the width of the column.
            let text = words(text).join(" ");
            for words in [rounds, mixers, mixer] {
                let has_it = has_all || ["cost", "choose"].contains(&command);
                assert_eq!(text.contains(words), has_it, "{text}");
            }
            assert_eq!(text.contains(rotation), has_all, "{text}");
        }
    }
}

#[test]
fn completions_name_every_command() {
    for shell in ["bash", "elvish", "fish", "powershell", "zsh"] {
        let script = lyra2(&["completions", shell], b"").result();
        for name in COMMANDS.into_iter().flat_map(words) {
            assert!(script.contains(name), "{shell}: {name}");
        }
        for option in [
            "key-length",
            "rounds",
            "rotation",
            "mixer",
            "lanes",
            "number",
        ] {
            assert!(script.contains(option), "{shell}: {option}");
        }
        // Not every shell's script completes values.
        let values = ["\"plain blamka\"", "(plain blamka)", "{plain\t,blamka\t}"];
        let has_values = values.iter().any(|values| script.contains(values));
        let completes_values = ["bash", "fish", "zsh"].contains(&shell);
        assert_eq!(has_values, completes_values, "{shell}");
    }
}

#[test]
fn help_is_given_before_anything_is_missed() {
    let help = lyra2(&["derive", "--help"], b"").result();
    assert_eq!(
        lyra2(&["derive", "--rows", "3", "--help"], b"").result(),
        help
    );
    assert!(help.contains("exactly one is left out"));
    assert!(help.contains("what is typed is not shown"));
}

#[test]
fn the_version() {
    let version = concat!("lyra2 ", env!("CARGO_PKG_VERSION"), "\n");
    assert_eq!(lyra2(&["--version"], b"").result(), version);
}
