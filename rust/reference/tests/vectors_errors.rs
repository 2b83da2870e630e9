//! Bad vectors files and bad arguments: one line says what is wrong and where.

use lyra2_reference::vectors::{read, Answer, NamedSettings, Question};
use lyra2_reference::{Mixer, Refusal, Settings};
use std::path::PathBuf;
use std::process::{Command, Output};

/// A line that can be read and holds.
const WALK: &str = "case=1 op=walk R=8 row0=5 refusal=0 row1=3";
const COST: &str = "case=1 op=cost key_len=32 password_len=31 salt_len=8 T=1 R=3 C=1 \
    refusal=0 full=2 reduced=6 rounds=30";
const REFUSED: &str = "case=1 op=derive_recorded key_len=0 password= salt=0011223344556677 \
    T=1 R=3 C=1 matrix_words=36 record_words=12 refusal=1";
const CHECK: &str = "case=1 op=check stored=00 password_zeros=3 salt_zeros=8 \
    T=1 R=3 C=1 matrix_words=36 refusal=0 answer=no full=2 reduced=6 rounds=30 \
    matrix_sum=0000000000000000";
const PROGRAM: &str = "case=1 op=walk_program input=330a \
    output_len=0 output_sum=cbf29ce484222325 output=";
const DERIVED: &str = "case=1 op=derive key_len=32 \
    password=c082a4fdfff10ac23f242265b58e7cee418014e1bb656d29 \
    salt=970d19add285c93d3e6acf7f93f5e9cc T=1 R=3 C=1 matrix_words=36 refusal=0 \
    key=01ff1f6b8a2f3c033f24023a1d9f6f9677f2a0b272bfdc823d4d637acfbaddab \
    full=3 reduced=6 rounds=42 matrix_sum=66e368127e9e89a5";

/// The same input as in the line before, with settings.
const NAMED: &str = "case=1 op=check stored=00 password_zeros=3 salt_zeros=8 \
    T=1 R=3 C=1 rho=12 omega=11 matrix_words=36 refusal=0 answer=no full=2 reduced=6 rounds=96 \
    matrix_sum=66e368127e9e89a5";

const LINE_READ: &str = "case=1 op=line_read \
    line=246c7972613224743d312c723d332c633d31246332467364484e68624851245a67 salt_room=8 key_room=1 \
    refusal=0 T=1 R=3 C=1 salt=73616c7473616c74 key=66";
const LINE_WRITE: &str =
    "case=1 op=line_write T=1 R=3 C=1 salt=73616c7473616c74 key=66 line_room=33 \
    refusal=0 line=246c7972613224743d312c723d332c633d31246332467364484e68624851245a67";

const CHOICE: &str = "case=1 op=choose key_len=32 password_len=31 salt_len=8 matrix_words=1200 \
    budget=1000 rho=1 tries=256 refusal=0 T=8 R=100 C=1 shortfall=0";

/// A book of one account, which is read, added to the empty book, removed and checked.
const FIND: &str = "case=1 op=book_find \
    book=414307000000000300010008010000010203040506070aee used=23 number=7 refusal=0 place=0";
const ADD: &str = "case=1 op=book_add \
    book=eeeeeeeeeeeeeeeeeeeeeeeeeeeeeeeeeeeeeeeeeeeeee used=0 number=7 T=0 R=3 C=1 \
    salt=0001020304050607 key=0a refusal=0 used_after=23 \
    book_after=414307000000000300010008010000010203040506070a";
const REMOVE: &str = "case=1 op=book_remove \
    book=414307000000000300010008010000010203040506070aee used=23 number=7 refusal=0 used_after=0 \
    book_after=0000000000000000000000000000000000000000000000ee";
const BOOK_CHECK: &str = "case=1 op=book_check password=00 \
    book=414307000000000300010008010000010203040506070a used=23 number=7 matrix_words=36 \
    refusal=0 answer=no full=2 reduced=3 rounds=27 matrix_sum=66e368127e9e89a5";
const ACCOUNT: &str = "case=1 op=book_account \
    book=414307000000000300010008010000010203040506070a place=0 refusal=0 \
    size=23 number=7 T=0 R=3 C=1 salt_len=8 key_len=1";

const LANES: &str =
    "case=1 op=lanes_derive key_len=1 password=00 salt=0001020304050607 T=1 R=4 C=1 p=1 \
    matrix_words=48 refusal=0 key=0a full=2 reduced=8 rounds=32 matrix_sum=66e368127e9e89a5";
const LANES_CHECK: &str = "case=1 op=lanes_check stored=0a password=00 salt=0001020304050607 \
    T=1 R=4 C=1 p=1 matrix_words=48 refusal=0 answer=no full=2 reduced=8 rounds=32 \
    matrix_sum=66e368127e9e89a5";
const LANES_COST: &str =
    "case=1 op=lanes_cost key_len=1 password_len=1 salt_len=8 T=1 R=4 C=1 p=1 \
    refusal=0 full=2 reduced=8 rounds=32";

/// The problem that reading a line gives, which must be laid to that line.
fn problem(line: &str) -> String {
    let file = format!("# a comment\n\n{line}\n");
    let problem = read(file.as_bytes()).expect_err("the line is bad");
    assert_eq!(problem.line, 3);
    problem.what
}

/// The same for a line in which a part is replaced.
fn replaced(line: &str, part: &str, by: &str) -> String {
    assert!(line.contains(part), "{part}");
    problem(&line.replacen(part, by, 1))
}

#[test]
fn the_lines_that_the_others_start_from_are_good() {
    for line in [
        WALK,
        COST,
        REFUSED,
        CHECK,
        PROGRAM,
        DERIVED,
        NAMED,
        LINE_READ,
        LINE_WRITE,
        CHOICE,
        FIND,
        ADD,
        REMOVE,
        BOOK_CHECK,
        ACCOUNT,
        LANES,
        LANES_CHECK,
        LANES_COST,
    ] {
        assert!(read(format!("{line}\n").as_bytes()).is_ok(), "{line}");
    }
    assert_eq!(read(b""), Ok(Vec::new()));
}

#[test]
fn missing_fields() {
    assert_eq!(replaced(WALK, " row0=5", ""), "field row0: missing");
    assert_eq!(replaced(WALK, " refusal=0", ""), "field refusal: missing");
    assert_eq!(replaced(WALK, "case=1 ", ""), "field case: missing");
    assert_eq!(replaced(WALK, " op=walk", ""), "field op: missing");
    assert_eq!(replaced(COST, " rounds=30", ""), "field rounds: missing");
    assert_eq!(
        replaced(REFUSED, " password=", ""),
        "field password: missing"
    );
    assert_eq!(replaced(CHECK, " answer=no", ""), "field answer: missing");
    assert_eq!(replaced(PROGRAM, " output=", ""), "field output: missing");
    for (line, fields) in [
        (
            LINE_READ,
            &["salt_room=8", "key_room=1", "T=1", "key=66"][..],
        ),
        (
            LINE_WRITE,
            &["C=1", "salt=73616c7473616c74", "line_room=33"],
        ),
        (
            CHOICE,
            &[
                "salt_len=8",
                "matrix_words=1200",
                "budget=1000",
                "rho=1",
                "tries=256",
                "shortfall=0",
            ],
        ),
        (FIND, &["used=23", "number=7", "place=0"]),
        (
            ADD,
            &["number=7", "T=0", "key=0a", "refusal=0", "used_after=23"],
        ),
        (REMOVE, &["used=23", "used_after=0"]),
        (
            BOOK_CHECK,
            &["password=00", "number=7", "matrix_words=36", "answer=no"],
        ),
        (
            ACCOUNT,
            &["place=0", "refusal=0", "size=23", "salt_len=8", "key_len=1"],
        ),
        (LANES, &["key_len=1", "p=1", "matrix_words=48", "key=0a"]),
        (LANES_CHECK, &["stored=0a", "p=1", "answer=no"]),
        (LANES_COST, &["salt_len=8", "p=1", "rounds=32"]),
    ] {
        for field in fields {
            let (name, _) = field.split_once('=').unwrap();
            let expected = format!("field {name}: missing");
            assert_eq!(replaced(line, &format!(" {field}"), ""), expected);
        }
    }
}

#[test]
fn settings_are_named_together_or_not_at_all() {
    assert_eq!(replaced(NAMED, " rho=12", ""), "field rho: missing");
    assert_eq!(replaced(NAMED, " omega=11", ""), "field omega: missing");
    let named = NamedSettings::pair(12, 11);
    assert_eq!(settings(NAMED), (Some(named), named.settings()));
    let unnamed = NAMED.replace(" rho=12 omega=11", "");
    assert_eq!(settings(&unnamed), (None, Settings::USUAL));
}

/// The settings that a line of a check names, and those that it goes with.
fn settings(line: &str) -> (Option<NamedSettings>, Settings) {
    let cases = read(format!("{line}\n").as_bytes()).unwrap();
    match &cases[0].1.question {
        Question::Check { given, .. } => (given.settings, given.settings()),
        other => panic!("{other:?}"),
    }
}

#[test]
fn the_mixer_is_one_of_two_names_beside_rounds_and_rotation() {
    let with = |mixer: &str| NAMED.replace(" omega=11", &format!(" omega=11 mixer={mixer}"));
    let pair = NamedSettings::pair(12, 11);
    assert_eq!(pair.settings().mixer, Mixer::Plain);
    for (name, mixer) in [("plain", Mixer::Plain), ("blamka", Mixer::BlaMka)] {
        let (named, settings) = settings(&with(name));
        let mixer = Some(mixer);
        assert_eq!(named, Some(NamedSettings { mixer, ..pair }));
        assert_eq!(Some(settings.mixer), mixer);
    }
    for name in ["", "BlaMka", "Plain", "blamka2", "1"] {
        let expected = format!("field mixer: '{name}' is neither plain nor blamka");
        assert_eq!(problem(&with(name)), expected);
    }
    let alone = CHECK.replace(" matrix_words", " mixer=plain matrix_words");
    assert_eq!(problem(&alone), "field rho: missing");
    let without_rotation = with("plain").replace(" omega=11", "");
    assert_eq!(problem(&without_rotation), "field omega: missing");
    let twice = with("plain mixer=plain");
    assert_eq!(problem(&twice), "field mixer: given twice");
}

#[test]
fn settings_of_lines_that_have_none() {
    let unknown = |name: &str| format!("field {name}: unknown in a line of this kind");
    // The cost question has rounds, no rotation and no mixer.
    let rounds = COST.replace(" refusal=0", " rho=1 refusal=0");
    assert!(read(format!("{rounds}\n").as_bytes()).is_ok());
    let rotation = replaced(COST, " refusal=0", " rho=1 omega=2 refusal=0");
    assert_eq!(rotation, unknown("omega"));
    let mixer = replaced(COST, " refusal=0", " rho=1 mixer=plain refusal=0");
    assert_eq!(mixer, unknown("mixer"));
    for line in [WALK, LINE_READ, LINE_WRITE, LANES, LANES_CHECK, LANES_COST] {
        for field in ["rho=1", "omega=2", "mixer=plain"] {
            let what = replaced(line, " refusal=0", &format!(" {field} refusal=0"));
            let (name, _) = field.split_once('=').unwrap();
            assert_eq!(what, unknown(name), "{line}");
        }
    }
    for (name, value) in [("rho", "1"), ("mixer", "plain")] {
        let by = format!(" {name}={value} output_len=0");
        assert_eq!(replaced(PROGRAM, " output_len=0", &by), unknown(name));
    }
}

#[test]
fn fields_given_twice_or_unknown() {
    let twice = replaced(WALK, " row0=5", " row0=5 row0=5");
    assert_eq!(twice, "field row0: given twice");
    let unknown = replaced(WALK, " row0=5", " row0=5 rows=5");
    assert_eq!(unknown, "field rows: unknown in a line of this kind");
    // An answer beside a refusal is as unknown as any other field.
    let answered = replaced(REFUSED, " refusal=1", " refusal=1 full=2");
    assert_eq!(answered, "field full: unknown in a line of this kind");
    let both = replaced(CHECK, " password_zeros=3", " password_zeros=3 password=00");
    assert_eq!(both, "field password: unknown in a line of this kind");
    // Costs are the answer of a choice, and no counts go with them; it has no rotation and no mixer.
    for field in ["full=2", "omega=2", "mixer=plain", "record_words=6"] {
        let what = replaced(CHOICE, " refusal=0", &format!(" {field} refusal=0"));
        let (name, _) = field.split_once('=').unwrap();
        assert_eq!(
            what,
            format!("field {name}: unknown in a line of this kind")
        );
    }
    // A book has no settings, and what stands at a place needs no used length.
    for (line, field) in [(FIND, "rho=1"), (BOOK_CHECK, "rho=1"), (ACCOUNT, "used=23")] {
        let what = replaced(line, " refusal=0", &format!(" {field} refusal=0"));
        let (name, _) = field.split_once('=').unwrap();
        assert_eq!(
            what,
            format!("field {name}: unknown in a line of this kind")
        );
    }
    let refused = replaced(ADD, "refusal=0", "refusal=19");
    assert_eq!(refused, "field used_after: unknown in a line of this kind");
    let refused = replaced(CHOICE, "refusal=0", "refusal=16");
    assert_eq!(refused, "field T: unknown in a line of this kind");
    let op = replaced(WALK, "op=walk", "op=wander");
    assert_eq!(op, "field op: 'wander' is unknown");
    let op = replaced(LANES, "lanes_derive", "lanes_wander");
    assert_eq!(op, "field op: 'lanes_wander' is unknown");
}

#[test]
fn bad_numbers() {
    let bad = ["", "x", "-1", "+1", "1.0", "0x1", "01", "1,000"];
    for value in bad {
        let what = replaced(WALK, "row0=5", &format!("row0={value}"));
        let expected = format!("field row0: '{value}' is not a decimal number");
        assert_eq!(what, expected);
    }
    for name in ["rho=12", "omega=11"] {
        let (field, _) = name.split_once('=').unwrap();
        let what = replaced(NAMED, name, &format!("{field}=02"));
        assert_eq!(what, format!("field {field}: '02' is not a decimal number"));
        let what = replaced(NAMED, name, &format!("{field}=18446744073709551616"));
        let start = format!("field {field}: 18446744073709551616 is out of range");
        assert!(what.starts_with(&start), "{what}");
    }
    // Nothing is lent for a choice, so that its numbers may be any of 64 bits.
    for name in ["matrix_words=1200", "budget=1000", "tries=256"] {
        let (field, _) = name.split_once('=').unwrap();
        let greatest = CHOICE.replace(name, &format!("{field}=18446744073709551615"));
        assert!(read(format!("{greatest}\n").as_bytes()).is_ok(), "{field}");
        let what = replaced(CHOICE, name, &format!("{field}=18446744073709551616"));
        let start = format!("field {field}: 18446744073709551616 is out of range");
        assert!(what.starts_with(&start), "{what}");
    }
    // A used length and a place may be any number, and an account's number any of 32 bits.
    for (line, name) in [(FIND, "used=23"), (ACCOUNT, "place=0")] {
        let (field, _) = name.split_once('=').unwrap();
        let greatest = line.replace(name, &format!("{field}=18446744073709551615"));
        assert!(read(format!("{greatest}\n").as_bytes()).is_ok(), "{field}");
    }
    for line in [FIND, ADD, REMOVE, BOOK_CHECK, ACCOUNT] {
        let greatest = line.replace("number=7", "number=4294967295");
        assert!(read(format!("{greatest}\n").as_bytes()).is_ok(), "{line}");
        let what = replaced(line, "number=7", "number=4294967296");
        let expected = "field number: 4294967296 is out of range, 0 to 4294967295";
        assert_eq!(what, expected, "{line}");
    }
    let above = replaced(WALK, "row0=5", "row0=18446744073709551616");
    let range = "18446744073709551616 is out of range, 0 to 18446744073709551615";
    assert_eq!(above, format!("field row0: {range}"));
    let case = replaced(WALK, "case=1", "case=0");
    assert!(case.starts_with("field case: 0 is out of range"));
    let matrix = replaced(REFUSED, "matrix_words=36", "matrix_words=67108865");
    assert_eq!(
        matrix,
        "field matrix_words: 67108865 is out of range, 0 to 67108864"
    );
    let zeros = replaced(CHECK, "salt_zeros=8", "salt_zeros=1048577");
    assert_eq!(
        zeros,
        "field salt_zeros: 1048577 is out of range, 0 to 1048576"
    );
    let key = replaced(REFUSED, "key_len=0", "key_len=1048577");
    assert_eq!(key, "field key_len: 1048577 is out of range, 0 to 1048576");
    for (line, name, room) in [
        (LINE_READ, "salt_room", 8),
        (LINE_READ, "key_room", 1),
        (LINE_WRITE, "line_room", 33),
    ] {
        let what = replaced(line, &format!("{name}={room}"), &format!("{name}=1048577"));
        let expected = format!("field {name}: 1048577 is out of range, 0 to 1048576");
        assert_eq!(what, expected);
    }
}

#[test]
fn refusals_have_numbers_that_exist() {
    for number in 1..=300 {
        let refused = format!("refusal={number}");
        let line = WALK.replace("refusal=0 row1=3", &refused);
        match Refusal::from_number(number) {
            Some(refusal) => {
                let cases = read(format!("{line}\n").as_bytes()).unwrap();
                assert_eq!(cases[0].1.answer, Answer::Refused(refusal));
            }
            None => {
                let expected = format!("field refusal: '{number}' is unknown");
                assert_eq!(problem(&line), expected);
            }
        }
    }
    let above = replaced(WALK, "refusal=0", "refusal=18446744073709551616");
    assert!(above.starts_with("field refusal: 18446744073709551616 is out of range"));
}

#[test]
fn bad_bytes_and_words() {
    let digit = "has something other than the digits 0-9 and a-f";
    for value in ["0g", "0x00", "AA", "\u{e9}", "00,00"] {
        let what = replaced(REFUSED, "password=", &format!("password={value}"));
        assert_eq!(what, format!("field password: {digit}"), "{value}");
    }
    let odd = replaced(REFUSED, "password=", "password=abc");
    assert_eq!(
        odd,
        "field password: has an odd number of hexadecimal digits"
    );
    let short = replaced(CHECK, "matrix_sum=0", "matrix_sum=");
    assert_eq!(
        short,
        "field matrix_sum: '000000000000000' is not sixteen digits long"
    );
    let word = replaced(CHECK, "matrix_sum=0", "matrix_sum=z");
    assert_eq!(word, format!("field matrix_sum: {digit}"));
    let answer = replaced(CHECK, "answer=no", "answer=maybe");
    assert_eq!(answer, "field answer: 'maybe' is neither yes nor no");
}

#[test]
fn states_have_sixteen_words() {
    let line = "case=1 op=derive_recorded key_len=1 password= salt_zeros=8 T=1 R=3 C=1 \
        matrix_words=36 record_words=12 refusal=0 key=00 state=0000000000000000,0000000000000001";
    assert_eq!(problem(line), "field state: 2 words where 16 are due");
}

#[test]
fn no_words_are_an_empty_value() {
    let zeros = ["0000000000000000"; 16].join(",");
    let line = format!(
        "case=1 op=derive_recorded key_len=1 password= salt_zeros=8 T=0 R=3 C=1 matrix_words=36 \
         record_words=0 refusal=0 key=00 state={zeros} full=2 reduced=3 rounds=27 \
         matrix_sum={sum} record_sum={sum} matrix={sum} record=",
        sum = "0000000000000001"
    );
    let cases = read(format!("{line}\n").as_bytes()).unwrap();
    let Answer::Recorded { in_full, .. } = &cases[0].1.answer else {
        panic!("{cases:?}");
    };
    assert_eq!(*in_full, Some((vec![1], vec![])));
    let comma = replaced(&line, "record=", "record=,");
    assert_eq!(comma, "field record: '' is not sixteen digits long");
}

#[test]
fn bad_lines() {
    let parts = replaced(WALK, " row0=5", " row0");
    assert_eq!(parts, "'row0' is not of the form name=value");
    let spaces = replaced(WALK, " row0=5", "  row0=5");
    assert_eq!(spaces, "'' is not of the form name=value");
    let carriage_return = problem(&format!("{WALK}\r"));
    assert_eq!(
        carriage_return,
        "field row1: '3\\r' is not a decimal number"
    );
    let order = read(format!("{WALK}\n{WALK}\n").as_bytes()).unwrap_err();
    assert_eq!(order.to_string(), "2: field case: 1 does not rise above 1");
    let cut = read(format!("{WALK}\n{}", &WALK[..30]).as_bytes()).unwrap_err();
    assert_eq!(
        cut.to_string(),
        "2: the line is cut off, its newline is missing"
    );
    let bytes = read(b"\n\xff\xfe\n").unwrap_err();
    assert_eq!(bytes.to_string(), "2: the line has bytes that are no text");
}

fn vectors(arguments: &[&str]) -> Output {
    Command::new(env!("CARGO_BIN_EXE_vectors"))
        .args(arguments)
        .output()
        .expect("the program runs")
}

/// A file in the tests' own folder.
fn place(name: &str) -> PathBuf {
    PathBuf::from(env!("CARGO_TARGET_TMPDIR")).join(name)
}

/// The one line that a failing run says.
fn complaint(arguments: &[&str]) -> String {
    let output = vectors(arguments);
    assert_eq!(output.status.code(), Some(1), "{arguments:?}");
    assert!(output.stdout.is_empty());
    let text = String::from_utf8(output.stderr).unwrap();
    assert_eq!(text.lines().count(), 1, "{text}");
    text.trim_end().to_string()
}

/// What `vectors check` says about a file with these contents, without the file's name.
fn complaint_about(name: &str, contents: &str) -> String {
    let file = place(name);
    std::fs::write(&file, contents).unwrap();
    let text = complaint(&["check", file.to_str().unwrap()]);
    let start = format!("{}:", file.display());
    text.strip_prefix(&start)
        .expect("the file's name")
        .to_string()
}

#[test]
fn program_says_where_a_file_is_bad() {
    let bad = WALK.replace("row0=5", "row0=five");
    let expected = "2: field row0: 'five' is not a decimal number";
    assert_eq!(complaint_about("bad.txt", &format!("#\n{bad}\n")), expected);
    let wrong = WALK.replace("row1=3", "row1=4");
    let expected = "1: case 1: field row1: 4 is due, 3 was found";
    assert_eq!(
        complaint_about("wrong.txt", &format!("{wrong}\n")),
        expected
    );
    let accepted = WALK.replace("row0=5", "row0=8");
    let expected = "1: case 1: field refusal: 0 is due, 9 was found";
    assert_eq!(
        complaint_about("accepted.txt", &format!("{accepted}\n")),
        expected
    );
    let derived = DERIVED.replace("addab", "addac");
    let expected = "1: case 1: field key: from digit 63 on, c is due, b was found";
    assert_eq!(
        complaint_about("key.txt", &format!("{derived}\n")),
        expected
    );
    let sum = complaint_about("sum.txt", &format!("{CHECK}\n"));
    let expected =
        "1: case 1: field matrix_sum: 0000000000000000 is due, 66e368127e9e89a5 was found";
    assert_eq!(sum, expected);
    let read = LINE_READ.replace("key=66", "key=67");
    let expected = "1: case 1: field key: 67 is due, 66 was found";
    assert_eq!(complaint_about("read.txt", &format!("{read}\n")), expected);
    let room = LINE_READ.replace("salt_room=8", "salt_room=7");
    let expected = "1: case 1: field refusal: 0 is due, 12 was found";
    assert_eq!(complaint_about("room.txt", &format!("{room}\n")), expected);
    let written = LINE_WRITE.replace("245a67", "245a68");
    let expected = "1: case 1: field line: from digit 65 on, 8 is due, 7 was found";
    assert_eq!(
        complaint_about("written.txt", &format!("{written}\n")),
        expected
    );
    for (part, by, due) in [
        ("T=8", "T=9", "T: 9 is due, 8 was found"),
        (
            "shortfall=0",
            "shortfall=1",
            "shortfall: 1 is due, 0 was found",
        ),
        (
            "budget=1000",
            "budget=29",
            "refusal: 0 is due, 16 was found",
        ),
        ("tries=256", "tries=0", "refusal: 0 is due, 15 was found"),
    ] {
        let choice = CHOICE.replace(part, by);
        let complaint = complaint_about("choice.txt", &format!("{choice}\n"));
        assert_eq!(complaint, format!("1: case 1: field {due}"));
    }
    let outside = NAMED.replace("rho=12", "rho=13");
    let expected = "1: case 1: field refusal: 0 is due, 13 was found";
    assert_eq!(
        complaint_about("outside.txt", &format!("{outside}\n")),
        expected
    );
    let rounds = NAMED.replace("rho=12", "rho=11");
    let expected = "1: case 1: field rounds: 96 is due, 90 was found";
    assert_eq!(
        complaint_about("rounds.txt", &format!("{rounds}\n")),
        expected
    );
    for (file, settings) in [
        ("rotation.txt", "rho=1 omega=3"),
        ("mixer.txt", "rho=1 omega=2 mixer=blamka"),
    ] {
        let other = DERIVED.replace(" matrix_words", &format!(" {settings} matrix_words"));
        let complaint = complaint_about(file, &format!("{other}\n"));
        let start = "1: case 1: field key: ";
        assert!(complaint.starts_with(start), "{complaint}");
    }
    // The sum that the line had before request #104, that of the end matrix.
    let kept = DERIVED.replace("66e368127e9e89a5", "0f3c14690553fc4a");
    let expected =
        "1: case 1: field matrix_sum: 0f3c14690553fc4a is due, 66e368127e9e89a5 was found";
    assert_eq!(complaint_about("kept.txt", &format!("{kept}\n")), expected);
}

#[test]
fn program_says_that_a_file_holds() {
    let file = place("good.txt");
    let mut lines = String::new();
    let usual = DERIVED.replace(" matrix_words", " rho=1 omega=2 mixer=plain matrix_words");
    let blamka = NAMED.replace(" matrix_words", " mixer=blamka matrix_words");
    let good = [
        WALK, DERIVED, &usual, NAMED, &blamka, LINE_READ, LINE_WRITE, CHOICE,
    ];
    for (number, line) in (1..).zip(good) {
        lines += &line.replace("case=1", &format!("case={number}"));
        lines.push('\n');
    }
    std::fs::write(&file, lines).unwrap();
    let output = vectors(&["check", file.to_str().unwrap()]);
    assert!(output.status.success());
    let text = String::from_utf8(output.stdout).unwrap();
    assert!(
        text.ends_with(": all hold (cases: 8, refusals: 0)\n"),
        "{text}"
    );
}

#[test]
fn program_names_files_that_it_cannot_open() {
    let missing = place("no such folder").join("file.txt");
    let missing = missing.to_str().unwrap();
    assert!(complaint(&["check", missing]).starts_with(missing));
    assert!(complaint(&["write", missing]).starts_with(missing));
    let folder = env!("CARGO_TARGET_TMPDIR");
    assert!(complaint(&["check", folder]).starts_with(folder));
}

#[test]
fn program_refuses_bad_arguments() {
    let calls: [&[&str]; 6] = [
        &[],
        &["write"],
        &["check"],
        &["check", "a", "b"],
        &["random", "1"],
        &["derive", "file"],
    ];
    for arguments in calls {
        assert!(complaint(arguments).starts_with("usage: "), "{arguments:?}");
    }
    assert!(complaint(&["random", "x", "1"]).starts_with("SEED: \"x\" is not a number"));
    assert!(complaint(&["random", "1", "-1"]).starts_with("COUNT: \"-1\" is not a number"));
}

#[test]
fn random_questions_agree() {
    for seed in ["0", "1", "18446744073709551615"] {
        let output = vectors(&["random", seed, "1000"]);
        let text = String::from_utf8(output.stdout).unwrap();
        assert!(output.status.success(), "{text}");
        assert!(text.starts_with(&format!("seed {seed}: ")), "{text}");
        assert!(text.ends_with("questions agree\n"), "{text}");
    }
}
