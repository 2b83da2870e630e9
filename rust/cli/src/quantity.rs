//! Sizes and times as options have them: a number and its unit.

use crate::options::decimal;

/// The units of a size, in bytes. Without one a number is of bytes.
const UNITS: [(&str, u64); 10] = [
    ("", 1),
    ("K", 1 << 10),
    ("KiB", 1 << 10),
    ("M", 1 << 20),
    ("MiB", 1 << 20),
    ("G", 1 << 30),
    ("GiB", 1 << 30),
    ("kB", 1000),
    ("MB", 1_000_000),
    ("GB", 1_000_000_000),
];

/// The bytes that a size stands for.
pub fn bytes(text: &str) -> Result<u64, String> {
    let end = text.find(|letter: char| !letter.is_ascii_digit());
    let (digits, unit) = text.split_at(end.unwrap_or(text.len()));
    let unit = UNITS.iter().find(|(name, _)| *name == unit);
    let Some((_, unit)) = unit.filter(|_| !digits.is_empty()) else {
        let words = "is not a size such as 6291456, 96MiB or 1GB";
        return Err(format!("{text:?} {words}"));
    };
    let bytes = (decimal(digits)? as u64).checked_mul(*unit);
    bytes.ok_or_else(|| format!("{text} has more than 64 bits"))
}

/// The seconds that a time stands for.
pub fn seconds(text: &str) -> Result<f64, String> {
    let (number, unit) = match text.strip_suffix("ms") {
        Some(number) => (number, 1e-3),
        None => (text.strip_suffix('s').unwrap_or(text), 1.0),
    };
    // f64 takes signs, exponents and words too, and a number of many digits for infinite.
    let is_part = |part: &str| !part.is_empty() && part.bytes().all(|digit| digit.is_ascii_digit());
    let is_plain = number.splitn(2, '.').all(is_part);
    let value = number.parse().ok().filter(|value: &f64| value.is_finite());
    let value = value.filter(|_| is_plain).map(|value| value * unit);
    value.ok_or_else(|| format!("{text:?} is not a time such as 2, 0.5 or 500ms"))
}
