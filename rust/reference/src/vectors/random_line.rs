//! Random questions about login lines: lines from the grammar, of which about a half are accepted.

use super::case::{Bytes, LoginValues, Question};
use super::random::Random;
use crate::base64::encode;

/// A line to be read or to be written.
pub fn question(random: &mut Random) -> Question {
    if random.once_in(3) {
        written(random)
    } else {
        read(random)
    }
}

/// A line to be read.
pub fn read(random: &mut Random) -> Question {
    let (salt_len, key_len) = lengths(random);
    let (salt, key) = (random.bytes(salt_len), random.bytes(key_len));
    let line = line(random, &salt, &key);
    Question::LineRead {
        line,
        salt_room: room(random, salt_len),
        key_room: room(random, key_len),
    }
}

/// A line to be written.
pub fn written(random: &mut Random) -> Question {
    let (salt_len, key_len) = lengths(random);
    let mut values = LoginValues {
        t: random.between(0, 255),
        r: random.between(3, 16_384),
        c: random.between(1, 256),
        salt: Bytes::Listed(random.bytes(salt_len)),
        key: Bytes::Listed(random.bytes(key_len)),
    };
    if random.once_in(6) {
        let any = random.word() >> random.between(0, 63);
        match random.between(1, 3) {
            1 => values.t = any,
            2 => values.r = any,
            _ => values.c = any,
        }
    }
    let digits = |number: u64| number.to_string().len() as u64;
    let numbers = digits(values.t) + digits(values.r) + digits(values.c);
    let text = |len: u64| (4 * len).div_ceil(3);
    let len = b"$lyra2$t=,r=,c=$$".len() as u64 + numbers + text(salt_len) + text(key_len);
    Question::LineWrite {
        values,
        line_room: room(random, len),
    }
}

/// Lengths of salt and key, seldom outside of their limits.
fn lengths(random: &mut Random) -> (u64, u64) {
    let salt_len = if random.once_in(12) {
        random.one_of(&[0, 1, 7, 8, 64, 65, 66, 100])
    } else {
        random.between(8, 64)
    };
    let key_len = if random.once_in(12) {
        random.one_of(&[0, 1, 1023, 1024, 1025, 1026, 1100])
    } else {
        random.mostly(1, 48, 1024, 8)
    };
    (salt_len, key_len)
}

/// Room for so many bytes: just enough, more, or seldom too little.
fn room(random: &mut Random, len: u64) -> u64 {
    match random.between(0, 15) {
        0 => len.saturating_sub(random.between(1, 3)),
        1 => random.between(0, len),
        2..=7 => len,
        _ => len + random.between(1, 40),
    }
}

/// A line of the grammar; one in three may have faults.
fn line(random: &mut Random, salt: &[u8], key: &[u8]) -> Vec<u8> {
    let faulty = random.once_in(3);
    let numbers = [255, 16_384, 256].map(|most| number(random, most, faulty));
    let [t, r, c] = &numbers;
    let (salt, key) = (text(random, salt, faulty), text(random, key, faulty));
    let mut line = [
        &b"$lyra2$t="[..],
        t,
        b",r=",
        r,
        b",c=",
        c,
        b"$",
        &salt,
        b"$",
        &key,
    ]
    .concat();
    if faulty {
        for _ in 0..random.between(0, 2) {
            change(random, &mut line);
        }
    }
    line
}

/// The digits of a number that is mostly within its limits.
fn number(random: &mut Random, most: u64, faulty: bool) -> Vec<u8> {
    let low = random.between(0, 3);
    let within = random.between(low, most);
    let digits = match random.between(0, 29) {
        0 => (random.word() >> random.between(0, 63)).to_string(),
        1 => many_digits(random),
        _ => within.to_string(),
    };
    let spoilt = match random.between(0, 7) {
        0 if faulty => format!("0{digits}"),
        1 if faulty => String::new(),
        _ => digits,
    };
    spoilt.into_bytes()
}

/// A number of up to 60 digits, seldom of up to 2,000.
fn many_digits(random: &mut Random) -> String {
    let len = random.mostly(1, 60, 2000, 8);
    let digit = |random: &mut Random, least: u64| char::from(b'0' + random.between(least, 9) as u8);
    let first = digit(random, 1);
    let rest: String = (1..len).map(|_| digit(random, 0)).collect();
    format!("{first}{rest}")
}

/// The base 64 of some bytes, sometimes spoilt at its end.
fn text(random: &mut Random, bytes: &[u8], faulty: bool) -> Vec<u8> {
    let mut text = encode(bytes);
    match random.between(0, 9) {
        0 if faulty => drop(text.pop()),
        1 if faulty => text.push(b'='),
        2 if faulty => text.push(any_byte(random)),
        // Another last character may have unused bits that are set.
        3 if faulty => {
            text.pop();
            text.push(any_byte(random));
        }
        _ => (),
    }
    text
}

/// Puts another byte somewhere, takes one out or exchanges one.
fn change(random: &mut Random, line: &mut Vec<u8>) {
    let place = random.between(0, line.len() as u64) as usize;
    match random.between(1, 3) {
        1 => line.insert(place, any_byte(random)),
        2 if place < line.len() => drop(line.remove(place)),
        3 if place < line.len() => line[place] = any_byte(random),
        _ => (),
    }
}

/// Any byte, and often one that lines have or nearly have.
fn any_byte(random: &mut Random) -> u8 {
    if random.once_in(4) {
        return random.word() as u8;
    }
    random.one_of(b"$$,,==trc01239AZaz+/-_ \n\0")
}
