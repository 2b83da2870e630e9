//! Where password, salt and stored key come from, byte for byte.

mod common;

use common::{hex, lyra2, words, Run, TemporaryFile};
use lyra2_reference::vectors::write::mixer_name;
use lyra2_reference::{derive, Inputs, Mixer, Settings};

const COSTS: &str = "--time 1 --rows 4 --columns 2";
const SALT: &[u8] = b"saltsalt";

/// The key that the second program derives, as the program prints it.
fn due(password: &[u8], salt: &[u8], key_length: usize) -> String {
    due_with(Settings::USUAL, password, salt, key_length)
}

fn due_with(settings: Settings, password: &[u8], salt: &[u8], key_length: usize) -> String {
    let inputs = Inputs {
        password,
        salt,
        t: 1,
        r: 4,
        c: 2,
        settings,
    };
    let mut key = vec![0; key_length];
    derive(&inputs, &mut key, &mut [0; 12 * 4 * 2]).expect("no check refuses");
    hex(&key) + "\n"
}

/// Derives 32 bytes with the salt and the options of this line.
fn derived(options: &str, input: &[u8]) -> Run {
    let salt = hex(SALT);
    let line = format!("derive {COSTS} --key-length 32 --salt {salt} {options}");
    lyra2(&words(&line), input)
}

fn checked(options: &str, input: &[u8]) -> Run {
    let line = format!("check {COSTS} --salt {} {options}", hex(SALT));
    lyra2(&words(&line), input)
}

#[test]
fn exactly_one_last_newline_of_standard_input_is_left_out() {
    for (input, password) in [
        (&b"pass"[..], &b"pass"[..]),
        (b"pass\n", b"pass"),
        (b"pass\n\n", b"pass\n"),
        (b"pass\r\n", b"pass\r"),
        (b"\npa\nss", b"\npa\nss"),
        (b" pass ", b" pass "),
        (b"\n", b""),
        (b"", b""),
        (b"\0\xff\0", b"\0\xff\0"),
    ] {
        let found = derived("", input).result();
        assert_eq!(found, due(password, SALT, 32), "{input:?}");
    }
}

#[test]
fn a_password_file_is_taken_as_it_is() {
    for password in [&b"pass"[..], b"pass\n", b"\n", b"", b"\0\xff\r\n\n"] {
        let file = TemporaryFile::holding(password);
        let options = format!("--password-file {}", file.name());
        let found = derived(&options, b"not this").result();
        assert_eq!(found, due(password, SALT, 32), "{password:?}");
        let found = derived("--password-file /dev/stdin", password).result();
        assert_eq!(found, due(password, SALT, 32), "{password:?}");
    }
}

#[test]
fn the_longest_password_and_one_byte_more() {
    let refused = "lyra2 derive: refused 2: the password must be 0 to 1024 bytes long";
    for (count, is_accepted) in [(1023, true), (1024, true), (1025, false), (100_000, false)] {
        let password = vec![b'x'; count];
        let file = TemporaryFile::holding(&password);
        let by_file = derived(&format!("--password-file {}", file.name()), b"");
        let with_newline = [&password[..], b"\n"].concat();
        for run in [by_file, derived("", &password), derived("", &with_newline)] {
            if is_accepted {
                assert_eq!(run.result(), due(&password, SALT, 32), "{count}");
            } else {
                assert_eq!(run.failure(), refused, "{count}");
            }
        }
    }
    // The newline that would be left out is not the last byte.
    let newline_inside = [&[b'x'; 1025][..], b"\n", &[b'x'; 1000]].concat();
    assert_eq!(derived("", &newline_inside).failure(), refused);
}

/// Input without an end: the program reads as much as tells the refusal.
#[test]
fn endless_input_is_refused() {
    let run = derived("--password-file /dev/zero", b"");
    assert!(run.failure().contains("refused 2"));
    let line = format!("derive {COSTS} --key-length 32 --salt-file /dev/zero");
    assert!(lyra2(&words(&line), b"").failure().contains("refused 10"));
}

#[test]
fn salts() {
    let too_short = "lyra2 derive: refused 3: the salt must be at least 8 bytes long";
    let too_long = "lyra2 derive: refused 10: the salt must be at most 64 bytes long";
    for count in [0, 7, 8, 64, 65, 1000] {
        let salt: Vec<u8> = (0..count).map(|place| place as u8 ^ 0x9a).collect();
        let file = TemporaryFile::holding(&salt);
        let start = format!("derive {COSTS} --key-length 40");
        let (lower, upper) = (hex(&salt), hex(&salt).to_uppercase());
        for option in [
            format!("--salt-file={}", file.name()),
            format!("--salt={lower}"),
            format!("--salt={upper}"),
        ] {
            let run = lyra2(&words(&format!("{start} {option}")), b"pass");
            match count {
                0..8 => assert_eq!(run.failure(), too_short, "{option}"),
                8..=64 => assert_eq!(run.result(), due(b"pass", &salt, 40), "{option}"),
                _ => assert_eq!(run.failure(), too_long, "{option}"),
            }
        }
    }
}

#[test]
fn key_lengths() {
    for length in [1, 95, 96, 97, 1024] {
        let line = format!("derive {COSTS} --salt {} --key-length {length}", hex(SALT));
        let found = lyra2(&words(&line), b"pass").result();
        assert_eq!(found, due(b"pass", SALT, length), "{length}");
    }
    for length in [0, 1025, usize::MAX] {
        let line = format!("derive {COSTS} --salt {} --key-length {length}", hex(SALT));
        let failure = lyra2(&words(&line), b"pass").failure();
        let due = "lyra2 derive: refused 1: the key must be 1 to 1024 bytes long";
        assert_eq!(failure, due, "{length}");
    }
}

/// Each key goes with its own rounds, rotation and mixer, and the usual ones are those that nobody gives.
#[test]
fn rounds_rotations_and_mixers() {
    let pairs = [(1, 2), (1, 1), (1, 11), (2, 2), (5, 7), (12, 2), (12, 11)];
    let mixers = [Mixer::Plain, Mixer::BlaMka];
    let of = |(rho, omega)| mixers.map(|mixer| Settings { rho, omega, mixer });
    let choices = pairs.map(of).concat();
    let options = |settings: Settings| {
        let Settings { rho, omega, mixer } = settings;
        let name = mixer_name(mixer);
        format!("--rounds {rho} --rotation {omega} --mixer {name}")
    };
    for &settings in &choices {
        let key = due_with(settings, b"pass", SALT, 32);
        let found = derived(&options(settings), b"pass").result();
        assert_eq!(found, key, "{settings:?}");
        for &other in &choices {
            let stored = format!("--key {key} {}", options(other));
            let run = checked(&stored, b"pass");
            let due = match other == settings {
                true => (Some(0), "yes\n"),
                false => (Some(1), "no\n"),
            };
            assert_eq!(
                (run.status, run.output.as_str()),
                due,
                "{settings:?} {other:?}"
            );
        }
    }
    let usual = Settings::USUAL;
    let [rho, omega, mixer] = [
        Settings { rho: 3, ..usual },
        Settings { omega: 3, ..usual },
        Settings {
            mixer: Mixer::BlaMka,
            ..usual
        },
    ];
    for (option, settings) in [
        ("--rounds 3", rho),
        ("--rotation=3", omega),
        ("--mixer blamka", mixer),
        ("--mixer=plain", usual),
    ] {
        let key = due_with(settings, b"pass", SALT, 32);
        assert_eq!(derived(option, b"pass").result(), key);
    }
}

#[test]
fn what_derive_prints_is_what_check_reads() {
    let key = derived("", b"pass").result();
    let digits = key.trim_end();
    for text in [key.clone(), digits.to_string(), key.to_uppercase()] {
        let file = TemporaryFile::holding(text.as_bytes());
        let run = checked(&format!("--key-file {}", file.name()), b"pass\n");
        assert_eq!(run.result(), "yes\n");
        let run = checked(&format!("--key {}", text.trim_end()), b"pass");
        assert_eq!(run.result(), "yes\n");
    }
}

#[test]
fn a_wrong_password_and_every_wrong_byte_give_no() {
    let key = derived("", b"pass").result();
    let no = |run: Run| {
        let found = (run.status, run.output.as_str(), run.error.as_str());
        assert_eq!(found, (Some(1), "no\n", ""));
    };
    no(checked(&format!("--key {key}"), b"Pass"));
    no(checked(&format!("--key {}", &key[..62]), b"pass"));
    no(checked(&format!("--key {}00", key.trim_end()), b"pass"));
    for place in 0..64 {
        let mut wrong = key.clone();
        let other = if &key[place..=place] == "0" { "1" } else { "0" };
        wrong.replace_range(place..=place, other);
        no(checked(&format!("--key {wrong}"), b"pass"));
    }
}

#[test]
fn stored_keys_outside_the_limits_are_refused() {
    let line = "lyra2 check: refused 1: the key must be 1 to 1024 bytes long";
    for (count, newline) in [
        (0, ""),
        (0, "\n"),
        (1025, ""),
        (1025, "\n"),
        (1026, ""),
        (9000, "\n"),
    ] {
        let file = TemporaryFile::holding(format!("{}{newline}", "ab".repeat(count)).as_bytes());
        let run = checked(&format!("--key-file {}", file.name()), b"pass");
        assert_eq!(run.failure(), line, "{count} {newline:?}");
    }
    let run = checked(&format!("--key={}", "ab".repeat(1025)), b"pass");
    assert_eq!(run.failure(), line);
    assert_eq!(checked("--key=", b"pass").failure(), line);
    let file = TemporaryFile::holding(format!("{}\n", "ab".repeat(1024)).as_bytes());
    let run = checked(&format!("--key-file {}", file.name()), b"pass");
    assert_eq!((run.status, run.output.as_str()), (Some(1), "no\n"));
}
