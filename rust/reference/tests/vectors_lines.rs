//! The login lines of the vectors file: that they cover what they should, and that their refusals follow the order.

mod common;

use lyra2_reference::vectors::{write, Answer, Case, Question};
use lyra2_reference::{Parameters, Refusal};
use std::collections::BTreeSet;
use std::ops::RangeInclusive;

/// The cases that request #105 added.
const LINES: RangeInclusive<u64> = 3139..=4064;

fn is_line(question: &Question) -> bool {
    matches!(
        question,
        Question::LineRead { .. } | Question::LineWrite { .. }
    )
}

fn cases() -> Vec<Case> {
    let cases = common::cases().into_iter().map(|(_, case)| case);
    cases.filter(|case| is_line(&case.question)).collect()
}

#[test]
fn lines_stand_together() {
    for (_, case) in common::cases() {
        assert_eq!(is_line(&case.question), LINES.contains(&case.number));
    }
}

/// What the checks of a question look at.
struct Held {
    is_form: bool,
    given: Parameters,
    is_short: bool,
}

/// The number that some digits stand for, or the largest.
fn value(digits: &str) -> Option<u64> {
    let is_number = digits.bytes().all(|byte| byte.is_ascii_digit())
        && !digits.is_empty()
        && (digits == "0" || !digits.starts_with('0'));
    is_number.then(|| digits.parse().unwrap_or(u64::MAX))
}

/// What a line to be read holds, where a look at it tells: it is of the form but for line breaks at its end, and
/// its texts have no wrong byte. That the last bits are zero is not looked at.
fn held_by_line(line: &[u8], salt_room: u64, key_room: u64) -> Option<Held> {
    let text = std::str::from_utf8(line).ok()?;
    let whole = text.trim_end_matches('\n');
    let (numbers, texts) = whole.strip_prefix("$lyra2$t=")?.split_once('$')?;
    let (t, numbers) = numbers.split_once(",r=")?;
    let (r, c) = numbers.split_once(",c=")?;
    let (salt, key) = texts.split_once('$')?;
    let is_text = |text: &str| {
        let inside = |byte: u8| byte.is_ascii_alphanumeric() || byte == b'+' || byte == b'/';
        text.bytes().all(inside) && text.len() % 4 != 1
    };
    if !is_text(salt) || !is_text(key) {
        return None;
    }
    let [salt_len, key_len] = [salt, key].map(|text| text.len() as u64 * 3 / 4);
    Some(Held {
        is_form: whole.len() == text.len(),
        given: Parameters {
            key_len,
            password_len: 0,
            salt_len,
            t: value(t)?,
            r: value(r)?,
            c: value(c)?,
        },
        is_short: salt_room < salt_len || key_room < key_len,
    })
}

fn held(question: &Question) -> Option<Held> {
    match question {
        Question::LineRead {
            line,
            salt_room,
            key_room,
        } => held_by_line(line, *salt_room, *key_room),
        Question::LineWrite { values, line_room } => {
            let [salt_len, key_len] = [values.salt.count(), values.key.count()];
            let numbers = [values.t, values.r, values.c].map(|number| number.to_string());
            let text = |len: u64| (len * 8).div_ceil(6) as usize;
            let len = 17 + numbers.concat().len() + text(salt_len) + text(key_len);
            Some(Held {
                is_form: true,
                given: Parameters {
                    key_len,
                    password_len: 0,
                    salt_len,
                    t: values.t,
                    r: values.r,
                    c: values.c,
                },
                is_short: *line_room < len as u64,
            })
        }
        _ => None,
    }
}

/// Whether the condition of a check holds, also where another check comes first.
fn holds(check: Refusal, held: &Held) -> bool {
    let given = &held.given;
    match check {
        Refusal::LineForm => !held.is_form,
        Refusal::KeyLength => given.key_len == 0 || given.key_len > 1024,
        Refusal::SaltTooShort => given.salt_len < 8,
        Refusal::SaltTooLong => given.salt_len > 64,
        Refusal::TimeCost => given.t > 255,
        Refusal::Rows => given.r < 3 || given.r > 16_384,
        Refusal::Columns => given.c == 0 || given.c > 256,
        Refusal::OutputTooShort => held.is_short,
        _ => false,
    }
}

fn refused_with(answer: &Answer) -> Option<Refusal> {
    match answer {
        Answer::Refused(refusal) => Some(*refusal),
        _ => None,
    }
}

#[test]
fn refusals_follow_the_order_of_the_checks() {
    let mut looked_at = 0;
    for case in cases() {
        let found = refused_with(&case.answer);
        let Some(held) = held(&case.question) else {
            assert_eq!(found, Some(Refusal::LineForm), "case {}", case.number);
            continue;
        };
        // Last bits that are set make a line refused that looks well.
        if held.is_form && found == Some(Refusal::LineForm) {
            continue;
        }
        let mut order = case.question.checks().iter();
        let due = order.find(|check| holds(**check, &held));
        assert_eq!(found, due.copied(), "case {}", case.number);
        looked_at += 1;
    }
    assert!(looked_at >= 600, "{looked_at}");
}

/// Such a case shows a program that makes the later check first.
#[test]
fn every_check_is_answered_where_a_later_one_holds_too() {
    for op in ["line_read", "line_write"] {
        let mut cases = cases();
        cases.retain(|case| write::op(&case.question) == op);
        let order = cases[0].question.checks();
        for (place, first) in order.iter().enumerate() {
            for later in &order[place + 1..] {
                // No salt is too short and too long.
                if (*first, *later) == (Refusal::SaltTooShort, Refusal::SaltTooLong) {
                    continue;
                }
                let shows = |case: &Case| {
                    refused_with(&case.answer) == Some(*first)
                        && held(&case.question).is_some_and(|held| holds(*later, &held))
                };
                assert!(cases.iter().any(shows), "{op}: {first:?}, {later:?}");
            }
        }
    }
}

/// The lengths of the numbers that are above their limits, by place: T, R and C.
#[test]
fn numbers_of_many_lengths() {
    let mut lengths = [BTreeSet::new(), BTreeSet::new(), BTreeSet::new()];
    for case in cases() {
        let Question::LineRead { line, .. } = &case.question else {
            continue;
        };
        let place = match refused_with(&case.answer) {
            Some(Refusal::TimeCost) => 0,
            Some(Refusal::Rows) => 1,
            Some(Refusal::Columns) => 2,
            _ => continue,
        };
        let text = String::from_utf8(line.clone()).unwrap();
        let numbers = text.split('$').nth(2).unwrap();
        lengths[place].insert(numbers.split(',').nth(place).unwrap().len() - 2);
    }
    for lengths in lengths {
        for len in [5, 10, 19, 20, 21, 100, 1999, 2000] {
            assert!(lengths.contains(&len), "{len}: {lengths:?}");
        }
    }
}

/// Lengths of the salt and of the key in accepted lines, and how many bytes more than these the outputs have.
#[test]
fn accepted_lines_cover_lengths_and_rooms() {
    let mut salts = BTreeSet::new();
    let mut keys = BTreeSet::new();
    let mut spare = [BTreeSet::new(), BTreeSet::new(), BTreeSet::new()];
    for case in cases() {
        match (&case.question, &case.answer) {
            (
                Question::LineRead {
                    salt_room,
                    key_room,
                    ..
                },
                Answer::LineRead(values),
            ) => {
                salts.insert(values.salt.count());
                keys.insert(values.key.count());
                spare[0].insert(salt_room - values.salt.count());
                spare[1].insert(key_room - values.key.count());
            }
            (Question::LineWrite { line_room, .. }, Answer::LineWritten { line }) => {
                spare[2].insert(line_room - line.len() as u64);
            }
            _ => (),
        }
    }
    for len in [8, 9, 10, 11, 12, 62, 63, 64] {
        assert!(salts.contains(&len), "salt of {len}");
    }
    for len in [1, 2, 3, 4, 5, 6, 7, 1022, 1023, 1024] {
        assert!(keys.contains(&len), "key of {len}");
    }
    for spare in spare {
        assert!([0, 1, 100].iter().all(|bytes| spare.contains(bytes)));
    }
}

/// Text lengths of 1 modulo 4 in lines that are refused for them alone: a character more or less is accepted.
#[test]
fn text_lengths_of_1_modulo_4() {
    let mut found = [0, 0];
    for case in cases() {
        let Question::LineRead { line, .. } = &case.question else {
            continue;
        };
        let parts: Vec<_> = line.split(|&byte| byte == b'$').collect();
        let [_, b"lyra2", b"t=1,r=3,c=1", salt, key] = parts[..] else {
            continue;
        };
        let zeros = |text: &[u8]| text.iter().all(|&byte| byte == b'A');
        for (place, text) in [salt, key].into_iter().enumerate() {
            if zeros(text) && text.len() % 4 == 1 {
                assert_eq!(case.answer, Answer::Refused(Refusal::LineForm));
                found[place] += 1;
            }
        }
    }
    assert!(found.iter().all(|&count| count >= 5), "{found:?}");
}
