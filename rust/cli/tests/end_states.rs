//! End-state files: what `trial` writes, what `compare` says, and files that are not in order.

mod common;

use common::end_state::{mixer_number, summed, unpacked, EndState};
use common::{hex, limited, lyra2, words, Run, TemporaryFile};
use lyra2_reference::vectors::random::Random;
use lyra2_reference::vectors::write::mixer_name;
use lyra2_reference::{derive_recorded, Inputs, Mixer, Settings};

/// T, R, C and the key length of most trials here.
const T: u64 = 2;
const R: u64 = 4;
const C: u64 = 3;
const KEY_LENGTH: u64 = 20;
/// The versions of the file.
const VERSIONS: [u64; 3] = [1, 2, 3];

fn trial(password: &[u8]) -> TemporaryFile {
    trial_of(T, R, C, "", password)
}

/// The file of the smallest matrix, for tests that go through its bytes.
fn small_trial() -> TemporaryFile {
    trial_of(1, 3, 1, "", b"pass")
}

fn trial_of(t: u64, r: u64, c: u64, settings: &str, password: &[u8]) -> TemporaryFile {
    let file = TemporaryFile::new();
    let line = format!(
        "trial --salt {} --time {t} --rows {r} --columns {c} {settings} --key-length {KEY_LENGTH} --output {}",
        hex(b"saltsalt"),
        file.name()
    );
    let printed = lyra2(&words(&line), password).result();
    let bytes = file.bytes();
    let sum: String = bytes[bytes.len() - 8..]
        .iter()
        .rev()
        .map(|byte| format!("{byte:02x}"))
        .collect();
    assert_eq!(printed, format!("{} bytes, checksum {sum}\n", bytes.len()));
    file
}

/// What the second program leaves.
fn due(password: &[u8]) -> EndState {
    due_of(T, R, C, Settings::USUAL, password)
}

fn due_of(t: u64, r: u64, c: u64, settings: Settings, password: &[u8]) -> EndState {
    let inputs = Inputs {
        password,
        salt: b"saltsalt",
        t,
        r,
        c,
        settings,
    };
    let sizes = inputs.parameters(KEY_LENGTH as usize);
    let mut matrix = vec![0; sizes.matrix_words() as usize];
    let mut record = vec![0; sizes.record_words() as usize];
    let mut key = [0; KEY_LENGTH as usize];
    let recorded = derive_recorded(&inputs, &mut key, &mut matrix, &mut record);
    let recorded = recorded.expect("no check refuses");
    let counts = recorded.counts;
    EndState {
        t,
        r,
        c,
        rho: settings.rho,
        omega: settings.omega,
        mixer: mixer_number(settings.mixer),
        key_length: KEY_LENGTH,
        counts: [counts.full, counts.reduced, counts.rounds],
        state: recorded.state.to_vec(),
        matrix,
        record: unpacked(&record),
    }
}

fn compare(first: &TemporaryFile, second: &TemporaryFile) -> Run {
    lyra2(&["compare", first.name(), second.name()], b"")
}

/// Compares two end states, as files with fitting checksums.
fn compared(first: &EndState, second: &EndState) -> Run {
    compared_as([3, 3], first, second)
}

/// The lines of a comparison of end states that differ.
#[track_caller]
fn differing(run: &Run) -> Vec<&str> {
    assert_eq!((run.status, run.error.as_str()), (Some(1), ""), "{run:?}");
    run.output.lines().collect()
}

#[test]
fn a_trial_writes_what_the_second_program_leaves() {
    let file = trial(b"pass");
    assert_eq!(EndState::read(&file.bytes()), due(b"pass"));
    assert_eq!(file.bytes(), due(b"pass").write());
    assert_eq!(compare(&file, &trial(b"pass")).result(), "equal\n");
    assert_eq!(compare(&file, &file).result(), "equal\n");
}

/// With other rounds or another rotation the input is absorbed as before, and the walk is another one; with another mixer
/// all is. The header says why, and the parts are compared all the same.
#[test]
fn trials_with_other_settings() {
    let usual = trial(b"pass");
    let (plain, blamka) = (Mixer::Plain, Mixer::BlaMka);
    for (rho, omega, mixer, words) in [
        (2, 2, plain, "rho: 1 and 2"),
        (12, 2, plain, "rho: 1 and 12"),
        (1, 1, plain, "omega: 2 and 1"),
        (1, 11, plain, "omega: 2 and 11"),
        (3, 5, plain, "rho: 1 and 3"),
        (1, 2, blamka, "mixer: plain and blamka"),
        (1, 5, blamka, "omega: 2 and 5"),
        (12, 2, blamka, "rho: 1 and 12"),
    ] {
        let name = mixer_name(mixer);
        let options = format!("--rounds {rho} --rotation {omega} --mixer {name}");
        let file = trial_of(T, R, C, &options, b"pass");
        let due = due_of(T, R, C, Settings { rho, omega, mixer }, b"pass");
        assert_eq!(file.bytes(), due.write(), "{options}");
        let again = trial_of(T, R, C, &options, b"pass");
        assert_eq!(compare(&file, &again).result(), "equal\n");

        let run = compare(&usual, &file);
        let lines = differing(&run);
        assert_eq!(lines[0], format!("different, first in the header: {words}"));
        assert_eq!(lines[1], format!("header: parts at {words}"));
        assert!(lines[2].starts_with("state: parts at word "), "{run:?}");
        assert!(lines[3].starts_with("matrix: parts at row "), "{run:?}");
        assert!(lines[4].starts_with("record: parts at visit "), "{run:?}");
    }
    let default = trial_of(T, R, C, "--rounds 1 --rotation 2 --mixer plain", b"pass");
    assert_eq!(default.bytes(), usual.bytes());
    // Nothing is rotated in the first three rows.
    let [two, seven] = [2, 7].map(|omega| {
        let options = format!("--rotation {omega}");
        trial_of(0, 3, C, &options, b"pass")
    });
    assert_eq!(
        differing(&compare(&two, &seven)),
        one_place("header", "omega: 2 and 7")
    );
}

/// Each version, with each.
fn pairs_of_versions() -> impl Iterator<Item = [u64; 2]> {
    VERSIONS
        .into_iter()
        .flat_map(|first| VERSIONS.map(|second| [first, second]))
}

/// Compares two end states, as files of these versions.
fn compared_as([one, other]: [u64; 2], first: &EndState, second: &EndState) -> Run {
    let files = [first.write_version(one), second.write_version(other)];
    let [first, second] = files.map(|bytes| TemporaryFile::holding(&bytes));
    compare(&first, &second)
}

/// documents.rs holds the bytes of the old versions to those that were written then.
#[test]
fn files_of_all_versions_are_equal() {
    for [t, r, c] in [[0, R, C], [1, 3, 1], [T, R, C]] {
        let end = due_of(t, r, c, Settings::USUAL, b"pass");
        let lengths = VERSIONS.map(|version| end.write_version(version).len() as u64);
        let two = 8 * (12 + 16 + 12 * r * c + r * t * (2 + 2 * c) + 1);
        assert_eq!(lengths, [two - 24, two, two - 8 * r * t * (1 + c)]);
        for versions in pairs_of_versions() {
            let run = compared_as(versions, &end, &end);
            assert_eq!(run.result(), "equal\n", "{versions:?}");
        }
        let trial = trial_of(t, r, c, "", b"pass");
        for version in VERSIONS {
            let file = TemporaryFile::holding(&end.write_version(version));
            assert_eq!(compare(&file, &trial).result(), "equal\n", "{version}");
        }
    }
}

/// Whatever differs is told as between two files of one version.
#[test]
fn headers_of_two_versions() {
    let end = due_of(1, 3, 1, Settings::USUAL, b"pass");
    for (options, words) in [
        ("--rounds 2", "rho: 1 and 2"),
        ("--rotation 3", "omega: 2 and 3"),
        ("--mixer blamka", "mixer: plain and blamka"),
    ] {
        let other = trial_of(1, 3, 1, options, b"pass");
        for version in VERSIONS {
            let old = TemporaryFile::holding(&end.write_version(version));
            let run = compare(&old, &other);
            let lines = differing(&run);
            assert_eq!(lines[0], format!("different, first in the header: {words}"));
        }
    }
    let mut other = end.clone();
    other.counts[2] += 1;
    let words = format!("rounds: {} and {}", end.counts[2], other.counts[2]);
    for versions in pairs_of_versions() {
        let run = compared_as(versions, &end, &other);
        assert_eq!(differing(&run), one_place("header", &words));
    }
}

#[test]
fn picks_are_named_between_any_two_versions() {
    let end = due(b"pass");
    let visit = 5 * (2 + 2 * C as usize);
    for (pick, name) in [
        (0, "visit 5, row0"),
        (1, "visit 5, row1"),
        (6, "visit 5, column 2, col0"),
        (7, "visit 5, column 2, col1"),
    ] {
        let mut other = end.clone();
        other.record[visit + pick] += 5;
        // What follows the first difference is not told.
        other.record[visit + 8..].fill(7);
        let [x, y] = [&end, &other].map(|end| end.record[visit + pick]);
        let words = format!("{name}: {x} and {y}");
        for versions in pairs_of_versions() {
            let run = compared_as(versions, &end, &other);
            assert_eq!(differing(&run), one_place("record", &words), "{versions:?}");
        }
    }
}

/// Every bit of a packed word counts: those above bit 31 make a second number that no derivation writes.
#[test]
fn stray_bits_of_a_packed_word() {
    let end = due(b"pass");
    for (place, name) in [(1, "row1"), (3, "column 0, col1")] {
        for bit in [31, 32, 40, 63] {
            let mut other = end.clone();
            other.record[place] += 1 << (bit - 16);
            let [x, y] = [&end, &other].map(|end| end.record[place]);
            let words = format!("visit 0, {name}: {x} and {y}");
            for version in VERSIONS {
                let run = compared_as([version, 3], &end, &other);
                assert_eq!(differing(&run), one_place("record", &words));
                // An old file can say the same.
                let run = compared_as([version, 3], &other, &other);
                assert_eq!(run.result(), "equal\n");
            }
        }
    }
}

/// A number of an old file that no packed word has room for is a difference, even where the sum that makes a word of it
/// and its neighbour would give the word of the other file.
#[test]
fn numbers_of_old_files_that_no_packed_word_holds() {
    for (place, names) in [
        (0, ["row0", "row1"]),
        (2, ["column 0, col0", "column 0, col1"]),
    ] {
        let mut end = due(b"pass");
        end.record[place..place + 2].copy_from_slice(&[0, 1]);
        for (numbers, at) in [
            ([65_536, 0], 0),
            ([65_536, 1], 0),
            ([0, 1 + (1 << 48)], 1),
            ([u64::MAX, u64::MAX], 0),
            ([0, u64::MAX], 1),
        ] {
            let mut old = end.clone();
            old.record[place..place + 2].copy_from_slice(&numbers);
            let name = format!("visit 0, {}", names[at]);
            let (old_number, number) = (numbers[at], at);
            let due = format!("{name}: {old_number} and {number}");
            let swapped = format!("{name}: {number} and {old_number}");
            for version in [1, 2] {
                let run = compared_as([version, 3], &old, &end);
                assert_eq!(differing(&run), one_place("record", &due));
                let run = compared_as([3, version], &end, &old);
                assert_eq!(differing(&run), one_place("record", &swapped));
                let run = compared_as([1, version], &old, &old);
                assert_eq!(run.result(), "equal\n");
            }
        }
    }
}

/// A file under the number of another version is not in order, though its checksum fits: the header or the record has
/// another length.
#[test]
fn the_number_of_another_version() {
    let good = small_trial();
    let end = due_of(1, 3, 1, Settings::USUAL, b"pass");
    let [one, two] = [1, 2].map(|version| end.write_version(version).len());
    let [one, two] = [one, two]
        .map(|length| format!("shorter than the {length} bytes that its header asks for"));
    let key_length = "rho is 20 in its header; 1 to 12 is due";
    let damaged = "damaged: its checksum is ";
    for (version, number, words) in [
        (1, 2, key_length),
        (1, 3, key_length),
        (2, 1, damaged),
        (2, 3, damaged),
        (3, 1, &one),
        (3, 2, &two),
    ] {
        let line = fault(&renumbered(&end.write_version(version), number), &good);
        assert!(line.starts_with(words), "{version} {number}: {line}");
    }
    // Without visits there is no record, and so nothing in which versions 2 and 3 differ but the number.
    let setup = due_of(0, 3, 1, Settings::USUAL, b"pass");
    assert_eq!(renumbered(&setup.write(), 2), setup.write_version(2));
}

/// The file with another version's number, and a checksum that fits.
fn renumbered(file: &[u8], version: u8) -> Vec<u8> {
    let mut body = file[..file.len() - 8].to_vec();
    body[8] = version;
    summed(body)
}

#[test]
fn two_passwords_part_in_every_part() {
    let run = compare(&trial(b"pass"), &trial(b"word"));
    let lines = differing(&run);
    assert_eq!(lines.len(), 5);
    assert!(
        lines[0].starts_with("different, first in the record: visit "),
        "{run:?}"
    );
    assert_eq!(lines[1], "header: equal");
    let [first, second] = [due(b"pass").state[0], due(b"word").state[0]];
    assert_eq!(
        lines[2],
        format!("state: parts at word 0: {first:016x} and {second:016x}")
    );
    assert!(
        lines[3].starts_with("matrix: parts at row 0, column 0, word 0: "),
        "{run:?}"
    );
    assert!(lines[4].starts_with("record: parts at visit "), "{run:?}");
}

/// With T = 0 the record is empty, and equal in any two files; state and matrix tell the passwords apart.
#[test]
fn trials_without_visits() {
    let due_of = |password| due_of(0, R, C, Settings::USUAL, password);
    let file = trial_of(0, R, C, "", b"pass");
    assert_eq!(file.bytes(), due_of(b"pass").write());
    let again = trial_of(0, R, C, "", b"pass");
    assert_eq!(compare(&file, &again).result(), "equal\n");

    let run = compare(&file, &trial_of(0, R, C, "", b"word"));
    let lines = differing(&run);
    let [first, second] = [due_of(b"pass").state[0], due_of(b"word").state[0]];
    let state = format!("word 0: {first:016x} and {second:016x}");
    assert_eq!(lines[0], format!("different, first in the state: {state}"));
    assert_eq!(lines[1], "header: equal");
    assert_eq!(lines[2], format!("state: parts at {state}"));
    assert!(
        lines[3].starts_with("matrix: parts at row 0, column 0, word 0: "),
        "{run:?}"
    );
    assert_eq!(lines[4], "record: equal");

    let run = compare(&file, &trial(b"pass"));
    let lines = differing(&run);
    assert_eq!(lines[0], "different, first in the header: T: 0 and 2");
    assert_eq!(lines[4], "record: not compared, since T, R or C differ");
}

/// The lines for end states that differ in one part at one place.
fn one_place(part: &str, words: &str) -> Vec<String> {
    let mut lines = vec![format!("different, first in the {part}: {words}")];
    for name in ["header", "state", "matrix", "record"] {
        lines.push(match name == part {
            true => format!("{name}: parts at {words}"),
            false => format!("{name}: equal"),
        });
    }
    lines
}

#[test]
fn every_word_of_the_state_is_named() {
    let end = due(b"pass");
    for place in 0..16 {
        let mut other = end.clone();
        other.state[place] ^= 1 << 63;
        let (x, y) = (end.state[place], other.state[place]);
        let words = format!("word {place}: {x:016x} and {y:016x}");
        assert_eq!(
            differing(&compared(&end, &other)),
            one_place("state", &words)
        );
    }
}

#[test]
fn every_word_of_the_matrix_is_named() {
    let end = due(b"pass");
    let mut place = 0;
    for (row, column) in (0..R).flat_map(|row| (0..C).map(move |column| (row, column))) {
        for word in 0..12 {
            let mut other = end.clone();
            other.matrix[place] ^= 1;
            let (x, y) = (end.matrix[place], other.matrix[place]);
            let words = format!("row {row}, column {column}, word {word}: {x:016x} and {y:016x}");
            assert_eq!(
                differing(&compared(&end, &other)),
                one_place("matrix", &words)
            );
            place += 1;
        }
    }
    assert_eq!(place, end.matrix.len());
}

#[test]
fn every_number_of_the_record_is_named() {
    let end = due(b"pass");
    let mut place = 0;
    for visit in 0..R * T {
        let columns = (0..C).flat_map(|column| [0, 1].map(|n| format!("column {column}, col{n}")));
        let picks = ["row0".to_string(), "row1".to_string()]
            .into_iter()
            .chain(columns);
        for pick in picks {
            let mut other = end.clone();
            other.record[place] += 5;
            let (x, y) = (end.record[place], other.record[place]);
            let words = format!("visit {visit}, {pick}: {x} and {y}");
            assert_eq!(
                differing(&compared(&end, &other)),
                one_place("record", &words)
            );
            place += 1;
        }
    }
    assert_eq!(place, end.record.len());
}

/// The first difference of a part is told, whatever follows.
#[test]
fn of_many_differences_the_first_is_told() {
    let end = due(b"pass");
    let mut other = end.clone();
    other.matrix[40..].fill(0);
    other.record[9..].fill(77);
    let run = compared(&end, &other);
    let lines = differing(&run);
    let record = format!("visit 1, row1: {} and 77", end.record[9]);
    assert_eq!(
        lines[0],
        format!("different, first in the record: {record}")
    );
    assert_eq!(lines[2], "state: equal");
    let word = end.matrix[40];
    let matrix = format!("row 1, column 0, word 4: {word:016x} and 0000000000000000");
    assert_eq!(lines[3], format!("matrix: parts at {matrix}"));
    assert_eq!(lines[4], format!("record: parts at {record}"));
    let mut other = end.clone();
    other.matrix[0] ^= 1;
    other.state[15] ^= 1;
    let run = compared(&end, &other);
    assert!(differing(&run)[0].starts_with("different, first in the state: word 15: "));
}

#[test]
fn header_fields() {
    let end = due(b"pass");
    let mut other = end.clone();
    other.key_length = 21;
    other.counts = [9, 9, 9];
    let run = compared(&end, &other);
    assert_eq!(
        differing(&run),
        one_place("header", "key length: 20 and 21")
    );
    for (place, name) in ["full calls", "reduced calls", "rounds"]
        .into_iter()
        .enumerate()
    {
        let mut other = end.clone();
        other.counts[place] = u64::MAX;
        let words = format!("{name}: {} and {}", end.counts[place], u64::MAX);
        assert_eq!(
            differing(&compared(&end, &other)),
            one_place("header", &words)
        );
    }
    let (rho, omega, mixer) = (12, 11, 1);
    let blamka = EndState {
        mixer,
        ..end.clone()
    };
    assert_eq!(
        differing(&compared(&blamka, &end)),
        one_place("header", "mixer: blamka and plain")
    );
    assert_eq!(compared(&blamka, &blamka).result(), "equal\n");
    for (other, words) in [
        (blamka, "mixer: plain and blamka"),
        (
            EndState {
                mixer,
                key_length: 21,
                ..end.clone()
            },
            "mixer: plain and blamka",
        ),
        (
            EndState {
                omega,
                mixer,
                ..end.clone()
            },
            "omega: 2 and 11",
        ),
        (EndState { rho, ..end.clone() }, "rho: 1 and 12"),
        (
            EndState {
                omega,
                ..end.clone()
            },
            "omega: 2 and 11",
        ),
        (
            EndState {
                rho,
                omega,
                key_length: 21,
                ..end.clone()
            },
            "rho: 1 and 12",
        ),
        (
            EndState {
                omega,
                key_length: 21,
                ..end.clone()
            },
            "omega: 2 and 11",
        ),
    ] {
        assert_eq!(
            differing(&compared(&end, &other)),
            one_place("header", words)
        );
    }
}

#[test]
fn other_t_r_or_c() {
    let end = due(b"pass");
    let of = |t: u64, r: u64, c: u64| EndState {
        t,
        r,
        c,
        matrix: vec![1; (12 * r * c) as usize],
        record: vec![1; (r * t * (2 + 2 * c)) as usize],
        ..end.clone()
    };
    for (other, words) in [
        (of(T + 1, R, C), "T: 2 and 3"),
        (of(T, R + 1, C), "R: 4 and 5"),
        (of(T, R, C - 1), "C: 3 and 2"),
        (of(T + 1, R + 1, C + 1), "T: 2 and 3"),
        (
            EndState {
                rho: 9,
                ..of(T, R, C + 1)
            },
            "C: 3 and 4",
        ),
    ] {
        let run = compared(&end, &other);
        let lines = differing(&run);
        assert_eq!(lines[0], format!("different, first in the header: {words}"));
        assert_eq!(lines[1], format!("header: parts at {words}"));
        assert_eq!(lines[2], "state: equal");
        assert_eq!(lines[3], "matrix: not compared, since T, R or C differ");
        assert_eq!(lines[4], "record: not compared, since T, R or C differ");
        // A damaged file is told even where nothing of it would be compared.
        for version in [2, 3] {
            let mut damaged = other.write_version(version);
            damaged.truncate(damaged.len() - 1);
            let files = [end.write(), damaged].map(|bytes| TemporaryFile::holding(&bytes));
            for [one, other] in [[0, 1], [1, 0]] {
                let line = compare(&files[one], &files[other]).failure();
                assert!(line.contains("shorter than the "), "{line}");
            }
        }
    }
}

/// The line for a file that is compared with a good one, in both places.
#[track_caller]
fn fault(bytes: &[u8], good: &TemporaryFile) -> String {
    let file = TemporaryFile::holding(bytes);
    let line = compare(&file, good).failure();
    assert_eq!(compare(good, &file).failure(), line);
    let start = format!("lyra2 compare: {:?}: ", file.name());
    line.strip_prefix(&start)
        .expect("the file's name")
        .to_string()
}

/// Every beginning of a file, whose header has so many bytes.
#[track_caller]
fn faults_of_beginnings(bytes: &[u8], header: usize, good: &TemporaryFile) {
    let whole = format!(
        "shorter than the {} bytes that its header asks for",
        bytes.len()
    );
    for length in 0..bytes.len() {
        let due = match length {
            // The version is not known yet.
            0..16 => "shorter than the header of an end-state file",
            _ if length < header => &format!("shorter than the header of {header} bytes"),
            _ => &whole,
        };
        assert_eq!(fault(&bytes[..length], good), due, "{length}");
    }
}

#[test]
fn files_cut_short_at_every_length() {
    let good = small_trial();
    let end = due_of(1, 3, 1, Settings::USUAL, b"pass");
    for (version, header) in [(1, 72), (2, 96), (3, 96)] {
        faults_of_beginnings(&end.write_version(version), header, &good);
    }
}

#[test]
fn files_with_a_changed_byte() {
    let good = small_trial();
    let mut random = Random::new(11);
    for place in 0..good.bytes().len() {
        let mut bytes = good.bytes();
        bytes[place] ^= random.between(1, 255) as u8;
        let line = fault(&bytes, &good);
        let due = match place {
            0..8 => "not an end-state file",
            8..16 => "version ",
            16..72 => "",
            _ => "damaged: its checksum is ",
        };
        assert!(line.starts_with(due), "{place}: {line}");
    }
}

/// The header's words at random, with a checksum that fits: no answer but the three that there are.
#[test]
fn headers_at_random() {
    let good = trial(b"pass");
    let end = due(b"pass");
    let mut random = Random::new(12);
    let interesting = [
        0,
        1,
        2,
        3,
        255,
        256,
        257,
        16_384,
        16_385,
        1 << 32 | 1,
        u64::MAX,
    ];
    let mut draw = || interesting[random.between(0, 10) as usize];
    for _ in 0..300 {
        let other = EndState {
            t: draw(),
            r: draw(),
            c: draw(),
            rho: draw(),
            omega: draw(),
            mixer: draw(),
            key_length: draw(),
            ..end.clone()
        };
        let line = fault(&other.write(), &good);
        let is_known =
            line.contains(" is due") || line.contains("er than the ") || line.contains("damaged");
        assert!(is_known, "{other:?}: {line}");
    }
}

#[test]
fn numbers_outside_their_limits() {
    let (good, end) = (trial(b"pass"), due(b"pass"));
    let with = |t: u64, r: u64, c: u64, key_length: u64| EndState {
        t,
        r,
        c,
        key_length,
        ..end.clone()
    };
    for (other, words) in [
        (
            with(256, R, C, 8),
            "T is 256 in its header; 0 to 255 is due",
        ),
        (
            with(1 << 32, R, C, 8),
            "T is 4294967296 in its header; 0 to 255 is due",
        ),
        (with(T, 2, C, 8), "R is 2 in its header; 3 to 16384 is due"),
        (
            with(T, 16_385, C, 8),
            "R is 16385 in its header; 3 to 16384 is due",
        ),
        (with(T, R, 0, 8), "C is 0 in its header; 1 to 256 is due"),
        (
            with(T, R, u64::MAX, 8),
            "C is 18446744073709551615 in its header; 1 to 256 is due",
        ),
        (
            with(T, R, C, 0),
            "the key length is 0 in its header; 1 to 1024 is due",
        ),
        (
            with(T, R, C, 1025),
            "the key length is 1025 in its header; 1 to 1024 is due",
        ),
    ] {
        for version in VERSIONS {
            assert_eq!(fault(&other.write_version(version), &good), words);
        }
    }
    let with = |rho: u64, omega: u64, mixer: u64| EndState {
        rho,
        omega,
        mixer,
        ..end.clone()
    };
    for (other, words) in [
        (with(0, 2, 0), "rho is 0 in its header; 1 to 12 is due"),
        (with(13, 0, 2), "rho is 13 in its header; 1 to 12 is due"),
        (
            with(1 << 32 | 1, 2, 0),
            "rho is 4294967297 in its header; 1 to 12 is due",
        ),
        (with(1, 0, 2), "omega is 0 in its header; 1 to 11 is due"),
        (with(12, 12, 0), "omega is 12 in its header; 1 to 11 is due"),
        (
            with(1, 2, 2),
            "the mixer is 2 in its header; 0 for plain or 1 for blamka is due",
        ),
        (
            with(1, 2, 1 << 32 | 1),
            "the mixer is 4294967297 in its header; 0 for plain or 1 for blamka is due",
        ),
        (
            with(1, 2, u64::MAX),
            "the mixer is 18446744073709551615 in its header; 0 for plain or 1 for blamka is due",
        ),
    ] {
        for version in [2, 3] {
            assert_eq!(fault(&other.write_version(version), &good), words);
        }
    }
}

#[test]
fn a_file_with_a_byte_too_many() {
    let (good, end) = (trial(b"pass"), due(b"pass"));
    for version in VERSIONS {
        let bytes = end.write_version(version);
        let words = format!(
            "longer than the {} bytes that its header asks for",
            bytes.len()
        );
        assert_eq!(fault(&[bytes, vec![0]].concat(), &good), words);
    }
}

/// The header of the largest file, and nothing after the state: compared in little memory.
#[test]
fn a_large_header_asks_for_no_memory() {
    let end = EndState {
        t: 255,
        r: 16_384,
        c: 256,
        ..due(b"pass")
    };
    for (version, header, visit) in [(1, 9, 514), (2, 12, 514), (3, 12, 257)] {
        let file = TemporaryFile::holding(&end.write_version(version));
        let name = file.name();
        let ended = limited(100_000, &format!("compare {name} {name}")).output();
        let ended = ended.expect("a shell");
        let bytes = 8 * (header + 16 + 12 * 16_384 * 256 + 16_384 * 255 * visit + 1u64);
        let words = format!("shorter than the {bytes} bytes that its header asks for");
        let line = format!("lyra2 compare: {name:?}: {words}\n");
        assert_eq!(String::from_utf8_lossy(&ended.stderr), line);
        assert_eq!(ended.status.code(), Some(2));
    }
}

#[test]
fn other_files() {
    let good = trial(b"pass");
    let other = "not an end-state file: it does not start with LYRA2END";
    assert_eq!(fault(&[0; 1000], &good), other);
    let empty = "shorter than the header of an end-state file";
    assert_eq!(fault(b"", &good), empty);
    let line = lyra2(&["compare", "/dev/zero", good.name()], b"").failure();
    assert_eq!(line, format!("lyra2 compare: \"/dev/zero\": {other}"));
    for version in [0, 4, 255] {
        let mut unknown = good.bytes();
        unknown[8] = version;
        let words = format!("version {version}; versions 1 to 3 are read");
        assert_eq!(fault(&unknown, &good), words);
    }
}
