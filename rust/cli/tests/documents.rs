//! What the documents show is what the program and the second program give.

mod common;

use common::book::Account;
use common::end_state::{summed, EndState};
use common::line::{encode, Line};
use common::{hex, lyra2, words, TemporaryFile};
use lyra2_reference::refusal::{
    BOOK_ADD_CHECKS, BOOK_CHECK_CHECKS, BOOK_FIND_CHECKS, CHOICE_CHECKS, COST_CHECKS, LANES_CHECKS,
    LANES_COST_CHECKS, LINE_READ_CHECKS, LINE_WRITE_CHECKS, PLAIN_CHECKS, RECORDED_CHECKS,
    WALK_CHECKS,
};
use lyra2_reference::{derive, lanes_derive, walk, Inputs, LaneInputs, Refusal, Settings};
use std::collections::BTreeMap;

fn document(name: &str) -> String {
    let path = format!("{}/../../{name}", env!("CARGO_MANIFEST_DIR"));
    std::fs::read_to_string(path).expect("the repository has this document")
}

/// README.md shows the key of scripts/derive.sh; tests/derive.sh runs that script.
#[test]
fn the_first_key_is_the_second_programs() {
    let inputs = Inputs {
        password: b"correct horse battery staple",
        salt: b"0123456789abcdef",
        t: 1,
        r: 1024,
        c: 64,
        settings: Settings::USUAL,
    };
    let mut key = [0; 32];
    let mut matrix = vec![0; 12 * 1024 * 64];
    derive(&inputs, &mut key, &mut matrix).expect("no check refuses");
    let readme = document("README.md");
    assert!(readme.lines().any(|line| line.trim() == hex(&key)));
}

/// The numbers of some checks, as the documents write them.
fn listed(checks: &[Refusal]) -> String {
    let numbers: Vec<_> = checks
        .iter()
        .map(|check| check.number().to_string())
        .collect();
    numbers.join(", ")
}

/// The order of the checks that a document gives for each operation, in lines made of this start, the operations'
/// names, this between, and the numbers.
fn orders(document: &str, start: &str, between: &str) -> BTreeMap<String, String> {
    let mut found = BTreeMap::new();
    for line in document.lines().filter_map(|line| line.strip_prefix(start)) {
        let Some((names, numbers)) = line.split_once(between) else {
            continue;
        };
        let numbers = numbers.trim_matches([' ', '|']);
        if numbers.starts_with(|digit: char| digit.is_ascii_digit()) {
            for name in names.split(", ") {
                let name = name.trim_matches('`').trim_start_matches("lyra2_");
                found.insert(name.to_string(), numbers.to_string());
            }
        }
    }
    found
}

#[test]
fn the_orders_of_the_checks_are_the_second_programs() {
    let due: BTreeMap<_, _> = [
        ("derive_recorded", RECORDED_CHECKS),
        ("derive", PLAIN_CHECKS),
        ("check", PLAIN_CHECKS),
        ("cost", COST_CHECKS),
        ("choose", CHOICE_CHECKS),
        ("walk", WALK_CHECKS),
        ("line_read", LINE_READ_CHECKS),
        ("line_write", LINE_WRITE_CHECKS),
        ("book_find", BOOK_FIND_CHECKS),
        ("book_add", BOOK_ADD_CHECKS),
        ("book_remove", BOOK_FIND_CHECKS),
        ("book_check", BOOK_CHECK_CHECKS),
        ("lanes_derive", LANES_CHECKS),
        ("lanes_check", LANES_CHECKS),
        ("lanes_cost", LANES_COST_CHECKS),
    ]
    .map(|(name, checks)| (name.to_string(), listed(checks)))
    .into();
    let header = document("include/lyra2.h");
    assert_eq!(orders(&header, " *     ", "  "), due);
    let page = document("vectors/README.md");
    assert_eq!(orders(&page, "| `", " | "), due);
    let code = ["operations", "choice", "line", "book", "lanes"]
        .map(|name| document(&format!("rust/lyra2/src/{name}.rs")));
    let comments = code.concat();
    let comments = comments
        .lines()
        .filter_map(|line| line.trim_start().strip_prefix("/// "));
    let comments = comments.collect::<Vec<_>>().join(" ");
    for checks in [
        RECORDED_CHECKS,
        PLAIN_CHECKS,
        COST_CHECKS,
        CHOICE_CHECKS,
        LINE_READ_CHECKS,
        LINE_WRITE_CHECKS,
        BOOK_FIND_CHECKS,
        BOOK_ADD_CHECKS,
        BOOK_CHECK_CHECKS,
        LANES_CHECKS,
        LANES_COST_CHECKS,
    ] {
        let sentence = format!("in the order of the checks: {}.", listed(checks));
        assert!(comments.contains(&sentence), "{sentence}");
    }
}

/// The lines of a document that show bytes: an offset, a colon, and up to sixteen bytes.
fn shown_bytes(document: &str) -> Vec<(usize, Vec<u8>)> {
    let lines = document.lines().filter_map(|line| {
        let (offset, bytes) = line.strip_prefix("    ")?.split_once(": ")?;
        let offset = usize::from_str_radix(offset, 16).ok()?;
        let byte = |text: &str| u8::from_str_radix(text, 16).expect("a byte");
        Some((offset, bytes.split(' ').map(byte).collect()))
    });
    lines.collect()
}

#[test]
fn the_example_of_an_end_state_file() {
    let text = document("docs/END-STATES.md");
    // Wherever the page's lines end.
    let sentences = words(&text).join(" ");
    let example = text
        .lines()
        .find_map(|line| line.trim().strip_prefix("printf password | lyra2 "))
        .expect("the document has its example");
    // Runs the example with other options and returns what it prints and writes.
    let run = |time: &str| {
        let file = TemporaryFile::new();
        let output = format!("--output {}", file.name());
        let line = example.replace("--output example", &output);
        let printed = lyra2(&words(&line.replace("--time 1", time)), b"password").result();
        (printed.trim_end().to_string(), file.bytes())
    };
    let (printed, bytes) = run("--time 1");
    let without_visits = run("--time 0").0;
    for due in [
        format!("--output example prints `{printed}`."),
        format!("With `--time 0` the same trial prints `{without_visits}`"),
    ] {
        assert!(sentences.contains(&due), "{due}");
    }
    for settings in ["--rounds 2 --rotation 3", "--mixer blamka"] {
        let other = run(&format!("--time 1 {settings}")).0;
        let due = format!("With `{settings}` it prints `{other}`");
        assert!(sentences.contains(&due), "{due}");
    }
    let shown = shown_bytes(&text);
    assert!(shown.len() >= 10);
    for (offset, part) in shown {
        assert_eq!(bytes[offset..offset + part.len()], part, "{offset:x}");
    }
    let [one, two] = old_versions(&bytes);
    for (old, start) in [(two, "the first one"), (one, "as one of version 1 it")] {
        let sum: Vec<u8> = old.iter().rev().take(8).copied().collect();
        let (length, sum) = (old.len(), hex(&sum));
        let due = format!("{start} had {length} bytes and the checksum `{sum}`");
        assert!(sentences.contains(&due), "{due}");
    }
}

/// The example as files of versions 1 and 2, made as the page says, whose checksums programs of those versions printed.
fn old_versions(bytes: &[u8]) -> [Vec<u8>; 2] {
    // Three visits of two words, and the checksum.
    let (start, record) = bytes[..bytes.len() - 8].split_at(bytes.len() - 8 - 3 * 2 * 8);
    let mut two = start.to_vec();
    two[8] = 2;
    for word in record.chunks(8) {
        // The quotient of a division by 65,536 are the bytes after the first two.
        two.extend([&word[..2], &[0; 6], &word[2..], &[0; 2]].concat());
    }
    let mut one = [&two[..40], &two[64..]].concat();
    one[8] = 1;
    let end = EndState::read(bytes);
    let files = [one, two].map(summed);
    assert_eq!(files, [1, 2].map(|version| end.write_version(version)));
    files
}

/// The commands of a document that give the program this password.
fn commands<'a>(document: &'a str, password: &str) -> Vec<&'a str> {
    let start = format!("    printf '{password}' | lyra2 ");
    let lines = document.lines();
    lines.filter_map(|line| line.strip_prefix(&start)).collect()
}

#[test]
fn the_example_of_a_login_line() {
    let text = document("docs/LOGIN-LINES.md");
    let password = "correct horse battery staple";
    let salt = b"0123456789abcdef";
    let line = Line::of_password(password.as_bytes(), [1, 1024, 64], salt, 32).write();
    assert!(text.lines().any(|shown| shown.trim() == line), "{line}");
    let [make, log_in] = commands(&text, password)[..] else {
        panic!("two commands are due");
    };
    let printed = lyra2(&words(make), password.as_bytes()).result();
    assert_eq!(printed, line + "\n");
    let file = TemporaryFile::holding(printed.as_bytes());
    let log_in = log_in.replace("--line-file line", &format!("--line-file {}", file.name()));
    assert!(log_in.contains(file.name()));
    let answer = lyra2(&words(&log_in), password.as_bytes()).result();
    assert!(text.contains(&format!("prints `{}`", answer.trim_end())));
}

/// The rows of the page's tables start with the refusal's number and end with the line.
#[test]
fn the_refused_lines_of_the_page() {
    let text = document("docs/LOGIN-LINES.md");
    let rows = text.lines().filter_map(|row| {
        let (number, rest) = row.strip_prefix("| ")?.split_once(" | ")?;
        let (_, line) = rest.strip_suffix("` |")?.rsplit_once(" | `")?;
        Some((number.parse::<u32>().expect("a number"), line))
    });
    let rows: Vec<(u32, &str)> = rows.collect();
    for (number, line) in &rows {
        let file = TemporaryFile::holding(line.as_bytes());
        let found = lyra2(&["login", "--line-file", file.name()], b"").failure();
        let due = format!("lyra2 login: refused {number}: ");
        assert!(found.starts_with(&due), "{line}: {found}");
    }
    let numbers: Vec<u32> = rows.iter().map(|(number, _)| *number).collect();
    assert_eq!(numbers[..7], [11, 1, 3, 10, 4, 5, 6]);
    assert!(numbers[7..].len() >= 12 && numbers[7..].iter().all(|number| *number == 11));
}

#[test]
fn the_letters_of_the_page() {
    let text = document("docs/LOGIN-LINES.md");
    let [whole, last] = [&b"saltsalt"[..], b"lt"].map(encode);
    assert!(whole.ends_with(&last) && text.contains(&format!("`{last}`")));
    let letters: Vec<String> = last.chars().map(String::from).collect();
    let mut shown = text
        .lines()
        .filter_map(|line| line.trim().strip_prefix("letters "));
    assert_eq!(words(shown.next().expect("the letters")), letters);
    // The last letters that leave their unused bits zero, and no others.
    for (rule, bytes) in [("last-of-2", 1), ("last-of-3", 2)] {
        let lines = text.lines().map(str::trim);
        let rule = lines.filter_map(|line| line.strip_prefix(rule)?.strip_prefix(" = "));
        let named: Vec<&str> = rule
            .flat_map(|rule| rule.split('"').skip(1).step_by(2))
            .collect();
        let mut due: Vec<String> = (0..=255u8)
            .map(|byte| encode(&[byte; 2][..bytes]))
            .map(|text| text.chars().last().expect("letters").to_string())
            .collect();
        let mut named: Vec<String> = named.into_iter().map(String::from).collect();
        for letters in [&mut due, &mut named] {
            letters.sort();
        }
        due.dedup();
        assert_eq!(named, due);
    }
}

#[test]
fn the_example_of_a_book() {
    let text = document("docs/ACCOUNT-BOOKS.md");
    let password = "correct horse battery staple";
    let account = Account::of_password(
        258,
        password.as_bytes(),
        [1, 1024, 64],
        b"0123456789abcdef",
        32,
    );
    let mut shown = Vec::new();
    for (offset, part) in shown_bytes(&text) {
        assert_eq!(offset, shown.len());
        shown.extend(part);
    }
    assert_eq!(shown, account.bytes());
    let file = TemporaryFile::new();
    let run = |line: &str| {
        let line = line.replace("--book book", &format!("--book {}", file.name()));
        assert!(line.contains(file.name()));
        lyra2(&words(&line), password.as_bytes()).result()
    };
    let [add, check] = commands(&text, password)[..] else {
        panic!("two commands are due");
    };
    for (line, bytes) in [(add, &shown), (check, &shown)] {
        let printed = run(line);
        assert!(text.contains(&format!("prints `{}`", printed.trim_end())));
        assert_eq!(&file.bytes(), bytes);
    }
    let listed = run("book list --book book");
    assert_eq!(listed, account.line());
    assert!(text.contains(&format!("    {listed}")));
}

/// The rows of the page's table start with the refusal's number and end with the book.
#[test]
fn the_refused_books_of_the_page() {
    let text = document("docs/ACCOUNT-BOOKS.md");
    let rows = text.lines().filter_map(|row| {
        let (_, digits) = row.strip_prefix("| 17 | ")?.split_once(" | `")?;
        Some(digits.strip_suffix("` |")?.replace(' ', ""))
    });
    let books: Vec<Vec<u8>> = rows
        .map(|digits| {
            let pairs = digits.as_bytes().chunks(2);
            let text = |pair| std::str::from_utf8(pair).expect("ASCII");
            pairs
                .map(|pair| u8::from_str_radix(text(pair), 16).expect("a byte"))
                .collect()
        })
        .collect();
    assert!(books.len() >= 10);
    for book in &books {
        let file = TemporaryFile::holding(book);
        let found = lyra2(&["book", "list", "--book", file.name()], b"").failure();
        assert!(found.contains("refused 17: "), "{book:?}: {found}");
    }
    // The damage is all that is wrong with them.
    let first = TemporaryFile::holding(&[b"A", &books[0][1..]].concat());
    lyra2(&["book", "list", "--book", first.name()], b"").result();
}

/// The page's two commands differ in the lanes alone.
#[test]
fn the_example_of_lanes() {
    let text = document("docs/LANES.md");
    let password = "correct horse battery staple";
    let [command] = commands(&text, password)[..] else {
        panic!("a command is due");
    };
    for p in [4, 1] {
        let inputs = LaneInputs {
            password: password.as_bytes(),
            salt: b"0123456789abcdef",
            t: 1,
            r: 1024,
            c: 64,
            p,
        };
        let mut key = [0; 32];
        let counts = lanes_derive(&inputs, &mut key, &mut vec![0; 12 * 1024 * 64]);
        let counts = counts.expect("no check refuses");
        assert!(text.lines().any(|line| line.trim() == hex(&key)), "{p}");
        let line = command.replace("--lanes 4", &format!("--lanes {p}"));
        let printed = lyra2(&words(&line), password.as_bytes()).result();
        assert_eq!(printed, hex(&key) + "\n", "{p}");
        if p == 4 {
            let [full, reduced, rounds] =
                [counts.full, counts.reduced, counts.rounds].map(with_commas);
            let due = format!("{full} full calls, {reduced} reduced calls and {rounds} rounds");
            assert!(text.contains(&due), "{due}");
        }
    }
}

/// A number as the pages write it.
fn with_commas(number: u64) -> String {
    match number {
        ..1000 => number.to_string(),
        _ => format!("{},{:03}", with_commas(number / 1000), number % 1000),
    }
}

/// The numbers in the rows of a page's table, whose head starts with this; an empty field is 0 and yes is 1.
fn table(document: &str, head: &str) -> Vec<Vec<u64>> {
    let lines = document.lines().skip_while(|line| !line.starts_with(head));
    let rows = lines.skip(2).take_while(|line| line.starts_with('|'));
    let fields = |row: &str| -> Vec<u64> {
        let row = row.trim_matches('|').split('|').map(str::trim);
        let number = |field: &str| match field {
            "" => 0,
            "yes" => 1,
            field => field.parse().expect("a number"),
        };
        row.map(number).collect()
    };
    rows.map(fields).collect()
}

/// The rows of Setup by the walk question, and its meetings by what the page says of them.
#[test]
fn the_meetings_of_the_page() {
    let rows = table(&document("docs/LANES.md"), "| row0 |");
    assert_eq!(rows.len(), 17);
    let (mut prev1, mut meetings, mut next) = (0, 0, 4);
    for (row0, row) in (3..).zip(&rows) {
        let row1 = walk(20, row0).expect("a row that Setup fills");
        // 4 from row 3 on, doubled at 15.
        let sqrt = if row0 < 15 { 4 } else { 8 };
        let meets = row0 == next;
        assert_eq!(row[..], [row0, row1, prev1, meetings, sqrt, meets.into()]);
        if meets {
            (meetings, next) = (meetings + 1, next + sqrt / 2);
        }
        prev1 = row1;
    }
}

/// The first stretch of visits has one more than sqrt, the others have sqrt, and the last has what is left.
#[test]
fn the_visits_between_meetings_of_the_page() {
    let text = document("docs/LANES.md");
    for (n, sqrt) in [(4, 4), (6, 4), (8, 4), (16, 8), (20, 8)] {
        let (mut stretches, mut first) = (Vec::new(), 0);
        while first < n {
            let meeting = if first == 0 { sqrt } else { first - 1 + sqrt };
            let last = meeting.min(n - 1);
            stretches.push(match first == last {
                true => first.to_string(),
                false => format!("{first} to {last}"),
            });
            first = last + 1;
        }
        let due = format!("| {n} | {sqrt} | {} |", stretches.join(", then "));
        assert!(text.lines().any(|line| line == due), "{due}");
    }
}

/// tests/c_example.sh holds the example to this.
#[test]
fn the_choice_of_the_c_example_is_the_programs() {
    let line = "choose --memory 6291456 --budget 1000000 --key-length 32";
    let printed = lyra2(&words(line), b"").result();
    let value = |name: &str| {
        let start = format!("{name}: ");
        let mut lines = printed.lines().filter_map(|line| line.strip_prefix(&start));
        lines.next().expect("the line is there")
    };
    let due = format!(
        "time {}, rows {}, columns {}\n{} bytes of matrix, {} rounds\nno others that fit have more cells\n",
        value("time"),
        value("rows"),
        value("columns"),
        value("matrix bytes"),
        value("rounds"),
    );
    assert_eq!(document("examples/choose_costs.out"), due);
}

/// tests/c_example.sh holds the example to this.
#[test]
fn the_line_of_the_c_example_is_the_second_programs() {
    let line = Line::of_password(b"correct horse", [1, 256, 64], b"salt of 16 bytes", 32).write();
    assert_eq!(document("examples/login_line.out"), line + "\n");
}
