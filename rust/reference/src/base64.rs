//! Base 64 by RFC 4648, section 4, as a login line has it: without `=`, and with zeros for the bits that fill up the
//! last character.

/// The characters by their values.
const ALPHABET: &[u8; 64] = b"ABCDEFGHIJKLMNOPQRSTUVWXYZabcdefghijklmnopqrstuvwxyz0123456789+/";

/// The text of some bytes: their bits from the highest on, six a character.
pub fn encode(bytes: &[u8]) -> Vec<u8> {
    let mut text = Vec::new();
    let (mut bits, mut count) = (0u32, 0);
    for &byte in bytes {
        bits = bits << 8 | u32::from(byte);
        count += 8;
        while count >= 6 {
            count -= 6;
            text.push(ALPHABET[(bits >> count) as usize]);
            bits &= (1 << count) - 1;
        }
    }
    if count > 0 {
        text.push(ALPHABET[(bits << (6 - count)) as usize]);
    }
    text
}

/// The bytes of a text; None if no bytes have this text.
pub fn decode(text: &[u8]) -> Option<Vec<u8>> {
    let mut bytes = Vec::new();
    let (mut bits, mut count) = (0u32, 0);
    for &character in text {
        let value = ALPHABET.iter().position(|&other| other == character)?;
        bits = bits << 6 | value as u32;
        count += 6;
        if count >= 8 {
            count -= 8;
            bytes.push((bits >> count) as u8);
            bits &= (1 << count) - 1;
        }
    }
    // Six unused bits are a whole character too many.
    (count < 6 && bits == 0).then_some(bytes)
}
