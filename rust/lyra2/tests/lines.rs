//! Login lines: texts of known bytes, the limits, the sizes to lend, and what is left alone.

use lyra2::{
    check, derive, read_line, write_line, Mixer, Parameters, Refusal, Settings, COLUMNS,
    KEY_LENGTHS, KEY_MAX, LINE_MAX, ROWS, SALT_LENGTHS, SALT_MAX, TIME_COSTS,
};
use lyra2_reference::vectors::random::Random;
use std::ops::RangeInclusive;

const SMALLEST: Parameters = Parameters {
    time: 1,
    rows: 3,
    columns: 1,
};
/// What the outputs hold before a call.
const HELD: u8 = 0xa5;

/// Writes a line into an output of this length. What a refused call leaves must be what was there, and so must what
/// follows a line.
fn written(
    parameters: Parameters,
    salt: &[u8],
    key: &[u8],
    room: usize,
) -> Result<String, Refusal> {
    let mut output = vec![HELD; room];
    let answer = write_line(parameters, salt, key, &mut output);
    let rest = output.split_off(answer.unwrap_or(0));
    assert!(rest.iter().all(|&byte| byte == HELD), "{answer:?}");
    answer?;
    Ok(String::from_utf8(output).expect("a line is ASCII"))
}

/// Reads a line into outputs of these lengths, and looks at them in the same way.
fn read(
    line: &[u8],
    [salt_room, key_room]: [usize; 2],
) -> Result<(Parameters, Vec<u8>, Vec<u8>), Refusal> {
    let (mut salt, mut key) = (vec![HELD; salt_room], vec![HELD; key_room]);
    let answer = read_line(line, &mut salt, &mut key)
        .map(|line| (line.parameters, line.salt.to_vec(), line.key.to_vec()));
    let lengths = answer
        .as_ref()
        .map_or([0, 0], |(_, s, k)| [s.len(), k.len()]);
    for (output, length) in [(salt, lengths[0]), (key, lengths[1])] {
        assert!(output[length..].iter().all(|&byte| byte == HELD));
    }
    answer
}

const ROOM: [usize; 2] = [SALT_MAX, KEY_MAX];

/// The examples of RFC 4648, sections 9 and 10, without their padding.
#[test]
fn texts_of_known_bytes() {
    for (key, text) in [
        (&b"\x14\xfb\x9c\x03\xd9\x7e"[..], "FPucA9l+"),
        (b"\x14\xfb\x9c\x03\xd9", "FPucA9k"),
        (b"\x14\xfb\x9c\x03", "FPucAw"),
        (b"f", "Zg"),
        (b"fo", "Zm8"),
        (b"foo", "Zm9v"),
        (b"foob", "Zm9vYg"),
        (b"fooba", "Zm9vYmE"),
        (b"foobar", "Zm9vYmFy"),
        (b"\xff\xff\xff\xff", "/////w"),
    ] {
        let line = format!("$lyra2$t=0,r=16384,c=256$c2FsdHNhbHQ${text}");
        let parameters = Parameters {
            time: 0,
            rows: 16_384,
            columns: 256,
        };
        let (salt, key) = (b"saltsalt".to_vec(), key.to_vec());
        assert_eq!(written(parameters, &salt, &key, LINE_MAX), Ok(line.clone()));
        assert_eq!(read(line.as_bytes(), ROOM), Ok((parameters, salt, key)));
    }
}

/// A line of these lengths, with zeros for salt and key.
fn line(time: &str, rows: &str, columns: &str, salt: usize, key: usize) -> Vec<u8> {
    let text = |bytes: usize| "A".repeat((8 * bytes).div_ceil(6));
    let (salt, key) = (text(salt), text(key));
    format!("$lyra2$t={time},r={rows},c={columns}${salt}${key}").into_bytes()
}

/// The numbers at the limits and one beside them, and numbers that no machine counts to.
#[track_caller]
fn limits_hold(
    limits: RangeInclusive<usize>,
    [below, above]: [Refusal; 2],
    writes: impl Fn(usize) -> Result<String, Refusal>,
    line: impl Fn(usize) -> Vec<u8>,
) {
    let (low, high) = (*limits.start(), *limits.end());
    for number in [low, high] {
        assert_eq!(writes(number).map(String::into_bytes), Ok(line(number)));
        assert!(read(&line(number), ROOM).is_ok(), "{number}");
    }
    for (number, refusal) in low
        .checked_sub(1)
        .map(|number| (number, below))
        .into_iter()
        .chain([(high + 1, above), (9 * high, above)])
    {
        assert_eq!(writes(number), Err(refusal), "{number}");
        assert_eq!(read(&line(number), ROOM), Err(refusal), "{number}");
    }
}

#[test]
fn the_named_limits_are_the_librarys() {
    let of = |time, rows, columns| Parameters {
        time,
        rows,
        columns,
    };
    let write =
        |parameters, salt, key| written(parameters, &vec![0; salt], &vec![0; key], LINE_MAX);
    limits_hold(
        KEY_LENGTHS,
        [Refusal::KeyLength; 2],
        |n| write(SMALLEST, 8, n),
        |n| line("1", "3", "1", 8, n),
    );
    limits_hold(
        SALT_LENGTHS,
        [Refusal::SaltTooShort, Refusal::SaltTooLong],
        |n| write(SMALLEST, n, 32),
        |n| line("1", "3", "1", n, 32),
    );
    limits_hold(
        TIME_COSTS,
        [Refusal::TimeCost; 2],
        |n| write(of(n, 3, 1), 8, 32),
        |n| line(&n.to_string(), "3", "1", 8, 32),
    );
    limits_hold(
        ROWS,
        [Refusal::Rows; 2],
        |n| write(of(1, n, 1), 8, 32),
        |n| line("1", &n.to_string(), "1", 8, 32),
    );
    limits_hold(
        COLUMNS,
        [Refusal::Columns; 2],
        |n| write(of(1, 3, n), 8, 32),
        |n| line("1", "3", &n.to_string(), 8, 32),
    );
    // 2 to the power 64, and as many rows as within the limits above a multiple of it.
    for rows in ["18446744073709551616", "18446744073709551619"] {
        let refused = read(&line("1", rows, "1", 8, 32), ROOM);
        assert_eq!(refused, Err(Refusal::Rows), "{rows}");
    }
    let thousand = "1".repeat(1000);
    let refused = read(&line(&thousand, &thousand, &thousand, 8, 32), ROOM);
    assert_eq!(refused, Err(Refusal::TimeCost));
}

#[test]
fn outputs_of_the_named_sizes_are_accepted_and_shorter_ones_are_not() {
    let largest = Parameters {
        time: 255,
        rows: 16_384,
        columns: 256,
    };
    let (salt, key) = ([1; SALT_MAX], [2; KEY_MAX]);
    let line = written(largest, &salt, &key, LINE_MAX).expect("the longest line");
    assert_eq!(line.len(), LINE_MAX);
    let short = Err(Refusal::OutputTooShort);
    for room in [0, 1, LINE_MAX / 2, LINE_MAX - 1] {
        assert_eq!(written(largest, &salt, &key, room), short, "{room}");
    }
    let longer = written(largest, &salt, &key, LINE_MAX + 100);
    assert_eq!(longer.as_ref(), Ok(&line));

    let short = Err(Refusal::OutputTooShort);
    for room in [
        [0, 0],
        [SALT_MAX - 1, KEY_MAX],
        [SALT_MAX, KEY_MAX - 1],
        [0, 2 * KEY_MAX],
        [2 * KEY_MAX, 0],
    ] {
        assert_eq!(read(line.as_bytes(), room), short, "{room:?}");
    }
    let due = Ok((largest, salt.to_vec(), key.to_vec()));
    for room in [ROOM, [SALT_MAX + 1, KEY_MAX + 1]] {
        assert_eq!(read(line.as_bytes(), room), due);
    }
    // An output may be as short as what is written there.
    let small = b"$lyra2$t=1,r=3,c=1$c2FsdHNhbHQ$AQID";
    assert_eq!(
        read(small, [8, 3]),
        Ok((SMALLEST, b"saltsalt".to_vec(), vec![1, 2, 3]))
    );
    assert_eq!(read(small, [7, 3]), short);
    assert_eq!(read(small, [8, 2]), short);
}

/// With everything wrong at once the first check refuses; put right one after another, each of them does.
#[test]
fn the_first_refusal_is_told() {
    let wrong = ["256", "2", "0"];
    let none = [0, 0];
    for (text, refusal) in [
        (b"$lyra2$t=256,r=2,c=0$$A".to_vec(), Refusal::LineForm),
        (line(wrong[0], wrong[1], wrong[2], 0, 0), Refusal::KeyLength),
        (
            line(wrong[0], wrong[1], wrong[2], 7, 1),
            Refusal::SaltTooShort,
        ),
        (
            line(wrong[0], wrong[1], wrong[2], 65, 1),
            Refusal::SaltTooLong,
        ),
        (line(wrong[0], wrong[1], wrong[2], 8, 1), Refusal::TimeCost),
        (line("0", wrong[1], wrong[2], 8, 1), Refusal::Rows),
        (line("0", "3", wrong[2], 8, 1), Refusal::Columns),
        (line("0", "3", "1", 8, 1), Refusal::OutputTooShort),
    ] {
        assert_eq!(read(&text, none), Err(refusal));
    }
    let of = |time, rows, columns| Parameters {
        time,
        rows,
        columns,
    };
    for (parameters, salt, key, refusal) in [
        (of(256, 2, 0), 7, 0, Refusal::KeyLength),
        (of(256, 2, 0), 7, 1, Refusal::SaltTooShort),
        (of(256, 2, 0), 65, 1, Refusal::SaltTooLong),
        (of(256, 2, 0), 8, 1, Refusal::TimeCost),
        (of(0, 2, 0), 8, 1, Refusal::Rows),
        (of(0, 3, 0), 8, 1, Refusal::Columns),
        (of(0, 3, 1), 8, 1, Refusal::OutputTooShort),
    ] {
        let answer = written(parameters, &vec![0; salt], &vec![0; key], 0);
        assert_eq!(answer, Err(refusal));
    }
}

/// They are told by their form, though values and outputs are wrong too.
#[test]
fn texts_that_are_not_of_the_form() {
    let good = "$lyra2$t=256,r=2,c=0$$";
    assert_eq!(read(good.as_bytes(), [0, 0]), Err(Refusal::KeyLength));
    for (from, to) in [
        (good, ""),
        ("$lyra2", "lyra2"),
        ("$lyra2", "$lyra"),
        ("lyra2", "LYRA2"),
        ("t=", ""),
        ("t=256", "t="),
        ("r=2", "r="),
        ("c=0", "c="),
        ("t=256", "t=0256"),
        ("r=2", "r=00"),
        ("c=0", "c=-0"),
        ("t=256", "t=2x6"),
        (",r=2", ""),
        ("r=2,c=0", "c=0,r=2"),
        ("$$", "$"),
        ("$$", "$$$"),
        ("$$", "$$\n"),
        ("$$", "$=$"),
        ("$$", "$A$"),
        ("$$", "$AB$"),
        ("$$", "$AAB$"),
        ("$$", "$AA A$"),
        ("$$", "$$AAA="),
        ("$$", "$$AAAAA"),
        ("$$", "$$AA\u{e4}"),
    ] {
        let text = good.replacen(from, to, 1);
        assert_ne!(text, good);
        for room in [[0, 0], ROOM] {
            let refused = read(text.as_bytes(), room);
            assert_eq!(refused, Err(Refusal::LineForm), "{text:?}");
        }
    }
}

/// Of a good line every byte is left out, doubled, or made another one in turn: no other text is read as the same
/// values, and what is read is written again as it was.
#[test]
fn every_other_text_is_another_line_or_none() {
    let good = b"$lyra2$t=10,r=30,c=7$c2FsdHNhbHQ$/+8";
    let due = read(good, ROOM).expect("a good line");
    let mut texts: Vec<Vec<u8>> = Vec::new();
    for place in 0..good.len() {
        let (before, after) = good.split_at(place);
        texts.push([before, &after[1..]].concat());
        texts.push([before, &after[..1], after].concat());
        texts.extend((0..=255).map(|byte| [before, &[byte], &after[1..]].concat()));
    }
    texts.extend((0..=255).map(|byte| [&good[..], &[byte]].concat()));
    texts.retain(|text| text != good);
    let (mut read_again, mut refused) = (0, 0);
    for text in &texts {
        match read(text, ROOM) {
            Ok(found) => {
                assert_ne!(found, due, "{text:?}");
                let (parameters, salt, key) = found;
                let line = written(parameters, &salt, &key, LINE_MAX).expect("within the limits");
                assert_eq!(line.as_bytes(), text);
                read_again += 1;
            }
            Err(_) => refused += 1,
        }
    }
    assert!(read_again > 800 && refused > 8000, "{read_again} {refused}");
}

#[test]
fn lines_at_random_are_read_as_written() {
    let mut random = Random::new(105);
    for _ in 0..500 {
        let mut within = |limits: RangeInclusive<usize>| {
            random.between(*limits.start() as u64, *limits.end() as u64) as usize
        };
        let parameters = Parameters {
            time: within(TIME_COSTS),
            rows: within(ROWS),
            columns: within(COLUMNS),
        };
        let [salt, key] = [within(SALT_LENGTHS), within(KEY_LENGTHS)].map(|length| {
            (0..length)
                .map(|_| within(0..=255) as u8)
                .collect::<Vec<_>>()
        });
        let line = written(parameters, &salt, &key, LINE_MAX).expect("within the limits");
        assert_eq!(read(line.as_bytes(), ROOM), Ok((parameters, salt, key)));
    }
}

/// A line does not say what its key was made with, so a check goes by the usual settings.
#[test]
fn a_line_goes_with_the_usual_settings() {
    let usual = Settings::from(SMALLEST);
    let rounds = Settings { rounds: 2, ..usual };
    let rotation = Settings {
        rotation: 3,
        ..usual
    };
    let mixer = Settings {
        mixer: Mixer::BlaMka,
        ..usual
    };
    for (settings, due) in [
        (usual, true),
        (rounds, false),
        (rotation, false),
        (mixer, false),
    ] {
        let (mut key, mut matrix, salt) = ([0; 32], [0; 36], b"saltsalt");
        derive(b"pass", salt, settings, &mut key, &mut matrix).expect("accepted");
        let line = written(settings.parameters, salt, &key, LINE_MAX).expect("within the limits");
        let (parameters, salt, key) = read(line.as_bytes(), ROOM).expect("a good line");
        let checked = check(b"pass", &salt, parameters, &key, &mut matrix).expect("accepted");
        assert_eq!(checked.same, due, "{settings:?}");
        let checked = check(b"pass", &salt, settings, &key, &mut matrix).expect("accepted");
        assert!(checked.same, "{settings:?}");
    }
}

#[test]
fn what_is_printed_for_a_look_has_no_key() {
    let (mut salt, mut key) = ([0; SALT_MAX], [0; KEY_MAX]);
    let line = read_line(
        b"$lyra2$t=1,r=3,c=1$c2FsdHNhbHQ$9/f39w",
        &mut salt,
        &mut key,
    );
    let shown = format!("{:?}", line.expect("a good line"));
    assert!(shown.contains("rows: 3") && shown.contains("key_length: 4"));
    assert!(!shown.contains("247") && !shown.contains("9/f"), "{shown}");
}
