//! Login lines: the form, the limits, the order of the checks, the outputs, and that reading and writing are inverse.

use lyra2_reference::refusal::{LINE_READ_CHECKS, LINE_WRITE_CHECKS};
use lyra2_reference::vectors::random::Random;
use lyra2_reference::{line_read, line_write, LineParts, LineValues, Refusal};

/// The bytes that lent outputs hold before.
const BEFORE: [u8; 2] = [0xa5, 0x5a];
const SALT: &[u8] = b"saltsalt";
/// The text of the salt.
const SALT_TEXT: &str = "c2FsdHNhbHQ";

/// Reads a line into outputs of these lengths; what is left of both comes back.
fn read(
    line: &[u8],
    salt_room: usize,
    key_room: usize,
) -> (Result<LineValues, Refusal>, Vec<u8>, Vec<u8>) {
    let (mut salt, mut key) = (vec![BEFORE[0]; salt_room], vec![BEFORE[1]; key_room]);
    let answer = line_read(line, &mut salt, &mut key);
    if answer.is_err() {
        assert_eq!(salt, vec![BEFORE[0]; salt_room]);
        assert_eq!(key, vec![BEFORE[1]; key_room]);
    }
    (answer, salt, key)
}

/// The number that reading a line gives, where the outputs have room for every accepted line.
fn number(line: &[u8]) -> u8 {
    read(line, 64, 1024).0.err().map_or(0, Refusal::number)
}

/// A line with these texts in it.
fn line(t: &str, r: &str, c: &str, salt: &str, key: &str) -> Vec<u8> {
    format!("$lyra2$t={t},r={r},c={c}${salt}${key}").into_bytes()
}

/// The text of so many bytes, all of them zero.
fn zeros(bytes: usize) -> String {
    "A".repeat((4 * bytes).div_ceil(3))
}

#[test]
fn a_line_is_read_and_written() {
    let text = b"$lyra2$t=1,r=3,c=1$c2FsdHNhbHQ$Zm9vYmE";
    let (answer, salt, key) = read(text, 8, 5);
    let values = LineValues {
        t: 1,
        r: 3,
        c: 1,
        salt_len: 8,
        key_len: 5,
    };
    assert_eq!(answer, Ok(values));
    assert_eq!((&salt[..], &key[..]), (SALT, &b"fooba"[..]));
    let parts = LineParts {
        t: 1,
        r: 3,
        c: 1,
        salt: SALT,
        key: b"fooba",
    };
    let mut output = [0; 38];
    assert_eq!(line_write(&parts, &mut output), Ok(38));
    assert_eq!(output, *text);
}

#[test]
fn bytes_past_the_written_ones_are_kept() {
    let text = line("1", "3", "1", SALT_TEXT, "Zm9vYmE");
    let (answer, salt, key) = read(&text, 70, 2000);
    assert!(answer.is_ok());
    assert_eq!((&salt[..8], &key[..5]), (SALT, &b"fooba"[..]));
    assert!(salt[8..].iter().all(|&byte| byte == BEFORE[0]));
    assert!(key[5..].iter().all(|&byte| byte == BEFORE[1]));
    let parts = LineParts {
        t: 1,
        r: 3,
        c: 1,
        salt: SALT,
        key: b"fooba",
    };
    let mut output = [BEFORE[0]; 100];
    assert_eq!(line_write(&parts, &mut output), Ok(38));
    assert_eq!(output[..38], text);
    assert!(output[38..].iter().all(|&byte| byte == BEFORE[0]));
}

#[test]
fn outputs_that_are_too_short() {
    let text = line("1", "3", "1", SALT_TEXT, "Zm9vYmE");
    for salt_room in 0..=9 {
        for key_room in 0..=6 {
            let (answer, ..) = read(&text, salt_room, key_room);
            let due = salt_room >= 8 && key_room >= 5;
            let refused = answer == Err(Refusal::OutputTooShort);
            assert_eq!((answer.is_ok(), refused), (due, !due));
        }
    }
    let parts = LineParts {
        t: 1,
        r: 3,
        c: 1,
        salt: SALT,
        key: b"fooba",
    };
    for room in 0..38 {
        let mut output = vec![BEFORE[0]; room];
        let answer = line_write(&parts, &mut output);
        assert_eq!(answer, Err(Refusal::OutputTooShort));
        assert_eq!(output, vec![BEFORE[0]; room]);
    }
}

/// The number that writing gives, with room for every accepted line; a refused call keeps the output.
fn written(t: u64, r: u64, c: u64, salt_len: usize, key_len: usize) -> u8 {
    let (salt, key) = (vec![0; salt_len], vec![0; key_len]);
    let parts = LineParts {
        t,
        r,
        c,
        salt: &salt,
        key: &key,
    };
    let mut output = [BEFORE[0]; 1480];
    let answer = line_write(&parts, &mut output);
    if answer.is_err() {
        assert_eq!(output, [BEFORE[0]; 1480]);
    }
    answer.err().map_or(0, Refusal::number)
}

/// Both operations, on the same values.
fn both(t: u64, r: u64, c: u64, salt_len: usize, key_len: usize) -> [u8; 2] {
    let [t_text, r_text, c_text] = [t, r, c].map(|number| number.to_string());
    let text = line(&t_text, &r_text, &c_text, &zeros(salt_len), &zeros(key_len));
    [number(&text), written(t, r, c, salt_len, key_len)]
}

#[test]
fn limits() {
    for t in [0, 1, 254, 255] {
        assert_eq!(both(t, 3, 1, 8, 1), [0; 2]);
    }
    for t in [256, 257, 1 << 16 | 1, 1 << 32 | 1, u64::MAX] {
        assert_eq!(both(t, 3, 1, 8, 1), [4; 2]);
    }
    for r in [3, 4, 16_383, 16_384] {
        assert_eq!(both(1, r, 1, 8, 1), [0; 2]);
    }
    for r in [0, 1, 2, 16_385, 1 << 16 | 3, 1 << 32 | 3, u64::MAX] {
        assert_eq!(both(1, r, 1, 8, 1), [5; 2]);
    }
    for c in [1, 2, 255, 256] {
        assert_eq!(both(1, 3, c, 8, 1), [0; 2]);
    }
    for c in [0, 257, 1 << 16 | 1, 1 << 32 | 1, u64::MAX] {
        assert_eq!(both(1, 3, c, 8, 1), [6; 2]);
    }
    for salt_len in 0..=70 {
        let due = match salt_len {
            0..=7 => 3,
            8..=64 => 0,
            _ => 10,
        };
        assert_eq!(both(1, 3, 1, salt_len, 1), [due; 2]);
    }
    for key_len in 0..=1030 {
        let due = u8::from(!(1..=1024).contains(&key_len));
        assert_eq!(both(1, 3, 1, 8, key_len), [due; 2]);
    }
}

/// The conditions of the checks between the first and the last of reading, by their numbers.
const VALUE_CHECKS: [u8; 6] = [1, 3, 10, 4, 5, 6];

#[test]
fn the_first_of_any_set_of_conditions_is_returned() {
    for set in 0u32..1 << VALUE_CHECKS.len() {
        let held = |number: u8| {
            let place = VALUE_CHECKS.iter().position(|&other| other == number);
            place.is_some_and(|place| set >> place & 1 == 1)
        };
        // No salt is too short and too long.
        if held(3) && held(10) {
            continue;
        }
        let key_len = if held(1) { 1025 } else { 1 };
        let salt_len = match (held(3), held(10)) {
            (true, _) => 7,
            (_, true) => 65,
            _ => 8,
        };
        let (t, r, c) = (
            if held(4) { 256 } else { 255 },
            if held(5) { 2 } else { 3 },
            if held(6) { 257 } else { 256 },
        );
        let first = VALUE_CHECKS.into_iter().find(|&number| held(number));
        let [t_text, r_text, c_text] = [t, r, c].map(|number: u64| number.to_string());
        let text = line(&t_text, &r_text, &c_text, &zeros(salt_len), &zeros(key_len));
        let (salt, key) = (vec![0; salt_len], vec![0; key_len]);
        let parts = LineParts {
            t,
            r,
            c,
            salt: &salt,
            key: &key,
        };
        for room in [0, 1480] {
            let due = first.or((room == 0).then_some(12)).unwrap_or(0);
            let (answer, ..) = read(&text, room, room);
            assert_eq!(answer.err().map_or(0, Refusal::number), due);
            let answer = line_write(&parts, &mut vec![0; room]);
            assert_eq!(answer.err().map_or(0, Refusal::number), due);
            // The form comes before everything else.
            let spoilt = [&text[..], b"\n"].concat();
            assert_eq!(read(&spoilt, room, room).0, Err(Refusal::LineForm));
        }
    }
}

#[test]
fn orders_of_the_checks() {
    let numbers =
        |checks: &[Refusal]| -> Vec<u8> { checks.iter().map(|check| check.number()).collect() };
    assert_eq!(numbers(LINE_READ_CHECKS), [11, 1, 3, 10, 4, 5, 6, 12]);
    assert_eq!(numbers(LINE_WRITE_CHECKS), [1, 3, 10, 4, 5, 6, 12]);
}

/// Decimal digits of 2^power + low, which cut to fewer bits is low.
fn power_of_two(power: usize, low: u8) -> String {
    let mut digits = vec![1u8];
    for _ in 0..power {
        let mut carry = 0;
        for digit in &mut digits {
            let double = 2 * *digit + carry;
            (*digit, carry) = (double % 10, double / 10);
        }
        digits.extend((carry > 0).then_some(carry));
    }
    // The last digit of a power is 2 to 8, so small sums may carry once.
    let mut carry = low;
    for digit in &mut digits {
        let sum = *digit + carry;
        (*digit, carry) = (sum % 10, sum / 10);
    }
    digits
        .iter()
        .rev()
        .map(|digit| char::from(b'0' + digit))
        .collect()
}

#[test]
fn numbers_of_any_length() {
    assert_eq!(power_of_two(64, 3), "18446744073709551619");
    let mut longest = 0;
    for power in (16..200).chain([256, 512, 1024, 2048, 6640]) {
        let [one, three] = [1, 3].map(|low| power_of_two(power, low));
        assert_eq!(
            number(&line(&one, "3", "1", SALT_TEXT, "AA")),
            4,
            "2^{power}"
        );
        assert_eq!(
            number(&line("1", &three, "1", SALT_TEXT, "AA")),
            5,
            "2^{power}"
        );
        assert_eq!(
            number(&line("1", "3", &one, SALT_TEXT, "AA")),
            6,
            "2^{power}"
        );
        longest = longest.max(one.len());
    }
    assert_eq!(longest, 1999);
    for len in 6..=2000 {
        let digits = "9".repeat(len);
        assert_eq!(number(&line(&digits, "3", "1", SALT_TEXT, "AA")), 4);
        assert_eq!(number(&line("1", &digits, "1", SALT_TEXT, "AA")), 5);
        assert_eq!(number(&line("1", "3", &digits, SALT_TEXT, "AA")), 6);
    }
}

#[test]
fn numbers_that_are_not_of_the_form() {
    for text in [
        "", "01", "00", "001", "+1", "-1", " 1", "1 ", "1.", "1.0", "0x1", "1e0", "1_0", "a",
        "\u{661}", "1\0", "1=", "1,", "$",
    ] {
        assert_eq!(number(&line(text, "3", "1", SALT_TEXT, "AA")), 11, "{text}");
        assert_eq!(number(&line("1", text, "1", SALT_TEXT, "AA")), 11, "{text}");
        assert_eq!(number(&line("1", "3", text, SALT_TEXT, "AA")), 11, "{text}");
    }
    // A zero by itself is of the form, and within the limits only for T.
    assert_eq!(number(&line("0", "3", "1", SALT_TEXT, "AA")), 0);
    assert_eq!(number(&line("1", "0", "1", SALT_TEXT, "AA")), 5);
    assert_eq!(number(&line("1", "3", "0", SALT_TEXT, "AA")), 6);
}

/// Empty texts are of the form; the length is then outside its limits.
#[test]
fn an_empty_salt_or_key() {
    assert_eq!(number(b"$lyra2$t=1,r=3,c=1$$"), 1);
    assert_eq!(number(b"$lyra2$t=1,r=3,c=1$c2FsdHNhbHQ$"), 1);
    assert_eq!(number(b"$lyra2$t=1,r=3,c=1$$AA"), 3);
    for cut in [
        &b"$lyra2$t=1,r=3,c=1$"[..],
        b"$lyra2$t=1,r=3,c=1",
        b"$lyra2$t=1,r=3,c=1$c2FsdHNhbHQ",
    ] {
        assert_eq!(number(cut), 11);
    }
}

/// Any other byte at a place of the line, no byte there, or one more: the line is of the form only where that gives
/// another number or another character of base 64, and then it is the line of what was read.
#[test]
fn every_single_change_is_refused_or_gives_another_line() {
    let text = line("10", "300", "25", SALT_TEXT, "Zm9vYmE");
    let mut accepted = 0;
    let mut look = |changed: &[u8]| {
        let (answer, salt, key) = read(changed, 64, 1024);
        let Ok(LineValues { t, r, c, .. }) = answer else {
            return;
        };
        let values = answer.expect("it was accepted");
        let parts = LineParts {
            t,
            r,
            c,
            salt: &salt[..values.salt_len as usize],
            key: &key[..values.key_len as usize],
        };
        let mut output = [0; 100];
        let len = line_write(&parts, &mut output).expect("the values were accepted");
        assert_eq!(&output[..len as usize], changed);
        accepted += 1;
    };
    for place in 0..text.len() {
        for byte in 0..=255 {
            let mut changed = text.clone();
            changed[place] = byte;
            look(&changed);
            let mut changed = text.clone();
            changed.insert(place, byte);
            look(&changed);
        }
        let mut changed = text.clone();
        changed.remove(place);
        look(&changed);
    }
    assert!(accepted > 64 * 15, "{accepted}");
}

#[test]
fn lines_of_any_accepted_values_are_read_back() {
    let mut random = Random::new(1050);
    for _ in 0..5_000 {
        let (salt_len, key_len) = (random.between(8, 64), random.between(1, 1024));
        let (salt, key) = (random.bytes(salt_len), random.bytes(key_len));
        let parts = LineParts {
            t: random.between(0, 255),
            r: random.between(3, 16_384),
            c: random.between(1, 256),
            salt: &salt,
            key: &key,
        };
        let mut output = [0; 1480];
        let len = line_write(&parts, &mut output).expect("the values are within their limits");
        let (answer, read_salt, read_key) = read(&output[..len as usize], 64, 1024);
        let values = LineValues {
            t: parts.t,
            r: parts.r,
            c: parts.c,
            salt_len,
            key_len,
        };
        assert_eq!(answer, Ok(values));
        assert_eq!(read_salt[..salt.len()], salt);
        assert_eq!(read_key[..key.len()], key);
    }
}

/// No accepted line is longer than the output that the C interface names for all of them.
#[test]
fn the_longest_line_has_1480_bytes() {
    let parts = LineParts {
        t: 255,
        r: 16_384,
        c: 256,
        salt: &[0xff; 64],
        key: &[0xff; 1024],
    };
    let mut output = [0; 1481];
    assert_eq!(line_write(&parts, &mut output), Ok(1480));
    assert_eq!(number(&output[..1480]), 0);
    let short = line_write(&parts, &mut output[..1479]);
    assert_eq!(short, Err(Refusal::OutputTooShort));
}
