//! The fields of a line: found by name, each once, and read as numbers, bytes or words.

use super::case::Bytes;
use std::ops::RangeInclusive;

/// What is wrong with a line, and in which field.
#[derive(Clone, Debug, PartialEq, Eq)]
pub struct Trouble {
    /// The field's name, if a single field is to blame.
    pub field: Option<String>,
    /// What is wrong with it.
    pub what: String,
}

impl Trouble {
    fn new(field: &str, what: impl Into<String>) -> Trouble {
        Trouble {
            field: Some(field.to_string()),
            what: what.into(),
        }
    }
}

/// The most zero bytes a field may stand for; the reader has to hold them.
pub const MOST_ZEROS: u64 = 1 << 20;

/// The fields of a line that have not been taken yet.
pub struct Fields<'a> {
    left: Vec<(&'a str, &'a str)>,
}

impl<'a> Fields<'a> {
    /// Divides a line at its single spaces.
    pub fn split(line: &'a str) -> Result<Fields<'a>, Trouble> {
        let mut left: Vec<(&str, &str)> = Vec::new();
        for part in line.split(' ') {
            let (name, value) = part.split_once('=').ok_or_else(|| Trouble {
                field: None,
                what: format!("'{}' is not of the form name=value", short(part)),
            })?;
            if left.iter().any(|(earlier, _)| *earlier == name) {
                return Err(Trouble::new(&short(name), "given twice"));
            }
            left.push((name, value));
        }
        Ok(Fields { left })
    }

    /// Whether a field is among those left.
    pub fn has(&self, name: &str) -> bool {
        self.left.iter().any(|(other, _)| *other == name)
    }

    /// Takes a field out.
    pub fn text(&mut self, name: &str) -> Result<&'a str, Trouble> {
        let place = self.left.iter().position(|(other, _)| *other == name);
        let missing = || Trouble::new(name, "missing");
        place
            .map(|place| self.left.remove(place).1)
            .ok_or_else(missing)
    }

    /// Takes out a decimal number within a range.
    pub fn number(&mut self, name: &str, range: RangeInclusive<u64>) -> Result<u64, Trouble> {
        let value = self.text(name)?;
        let digits = !value.is_empty() && value.bytes().all(|byte| byte.is_ascii_digit());
        if !digits || (value.len() > 1 && value.starts_with('0')) {
            let what = format!("'{}' is not a decimal number", short(value));
            return Err(Trouble::new(name, what));
        }
        let number = value.parse().ok().filter(|number| range.contains(number));
        number.ok_or_else(|| {
            let (low, high) = (range.start(), range.end());
            let what = format!("{} is out of range, {low} to {high}", short(value));
            Trouble::new(name, what)
        })
    }

    /// Takes out any 64-bit number.
    pub fn any_number(&mut self, name: &str) -> Result<u64, Trouble> {
        self.number(name, 0..=u64::MAX)
    }

    /// Takes out bytes, two hexadecimal digits each.
    pub fn hex(&mut self, name: &str) -> Result<Vec<u8>, Trouble> {
        read_hex(self.text(name)?).map_err(|what| Trouble::new(name, what))
    }

    /// Takes out bytes that are listed under one name or counted as zeros under another.
    pub fn bytes(&mut self, name: &str, zeros_name: &str) -> Result<Bytes, Trouble> {
        if self.has(zeros_name) {
            return self.number(zeros_name, 0..=MOST_ZEROS).map(Bytes::Zeros);
        }
        self.hex(name).map(Bytes::Listed)
    }

    /// Takes out a word of sixteen hexadecimal digits.
    pub fn word(&mut self, name: &str) -> Result<u64, Trouble> {
        read_word(self.text(name)?).map_err(|what| Trouble::new(name, what))
    }

    /// Takes out words, divided by commas; an empty value is no words.
    pub fn words(&mut self, name: &str) -> Result<Vec<u64>, Trouble> {
        let value = self.text(name)?;
        let each = value.split(',').filter(|_| !value.is_empty());
        let words: Result<_, _> = each.map(read_word).collect();
        words.map_err(|what| Trouble::new(name, what))
    }

    /// Takes out exactly N words.
    pub fn exact_words<const N: usize>(&mut self, name: &str) -> Result<[u64; N], Trouble> {
        let words = self.words(name)?;
        let what = format!("{} words where {N} are due", words.len());
        words.try_into().map_err(|_| Trouble::new(name, what))
    }

    /// Takes out a value that is one of two names, true for the first.
    pub fn either(&mut self, name: &str, first: &str, second: &str) -> Result<bool, Trouble> {
        let value = self.text(name)?;
        if value != first && value != second {
            let what = format!("'{}' is neither {first} nor {second}", short(value));
            return Err(Trouble::new(name, what));
        }
        Ok(value == first)
    }

    /// Ends the line, which must have no field left.
    pub fn end(self) -> Result<(), Trouble> {
        match self.left.first() {
            Some((name, _)) => Err(Trouble::new(&short(name), "unknown in a line of this kind")),
            None => Ok(()),
        }
    }
}

/// Says that a field's value is none that the field may have.
pub fn unknown_value(name: &str, value: &str) -> Trouble {
    Trouble::new(name, format!("'{}' is unknown", short(value)))
}

/// The start of a text, enough to find the place by.
pub fn short(text: &str) -> String {
    let mut start: String = text.chars().take(40).collect();
    if start.len() < text.len() {
        start.push_str("...");
    }
    start.escape_debug().to_string()
}

fn read_digit(digit: u8) -> Result<u8, String> {
    match digit {
        b'0'..=b'9' => Ok(digit - b'0'),
        b'a'..=b'f' => Ok(digit - b'a' + 10),
        _ => Err("has something other than the digits 0-9 and a-f".to_string()),
    }
}

fn read_hex(text: &str) -> Result<Vec<u8>, String> {
    let digits: Vec<u8> = text.bytes().map(read_digit).collect::<Result<_, _>>()?;
    if !digits.len().is_multiple_of(2) {
        return Err("has an odd number of hexadecimal digits".to_string());
    }
    Ok(digits.chunks(2).map(|two| 16 * two[0] + two[1]).collect())
}

fn read_word(text: &str) -> Result<u64, String> {
    if text.len() != 16 {
        return Err(format!("'{}' is not sixteen digits long", short(text)));
    }
    let bytes = read_hex(text)?;
    Ok(bytes
        .iter()
        .fold(0, |sum, byte| sum << 8 | u64::from(*byte)))
}
