//! Base 64 without `=`: the examples of RFC 4648, the alphabet, and that every text stands for its own bytes alone.

use lyra2_reference::base64::{decode, encode};
use lyra2_reference::vectors::random::Random;

const ALPHABET: &str = "ABCDEFGHIJKLMNOPQRSTUVWXYZabcdefghijklmnopqrstuvwxyz0123456789+/";

/// Section 10 of the RFC, less the `=` at the end.
#[test]
fn examples_of_the_rfc() {
    let examples = [
        ("", ""),
        ("f", "Zg"),
        ("fo", "Zm8"),
        ("foo", "Zm9v"),
        ("foob", "Zm9vYg"),
        ("fooba", "Zm9vYmE"),
        ("foobar", "Zm9vYmFy"),
    ];
    for (bytes, text) in examples {
        assert_eq!(encode(bytes.as_bytes()), text.as_bytes());
        assert_eq!(decode(text.as_bytes()).as_deref(), Some(bytes.as_bytes()));
    }
}

/// The first three are those of section 9 of the RFC.
#[test]
fn bytes_above_127() {
    for (bytes, text) in [
        (&[0x14, 0xfb, 0x9c, 0x03, 0xd9, 0x7e][..], "FPucA9l+"),
        (&[0x14, 0xfb, 0x9c, 0x03, 0xd9], "FPucA9k"),
        (&[0x14, 0xfb, 0x9c, 0x03], "FPucAw"),
        (&[0xff; 3], "////"),
        (&[0xff; 2], "//8"),
        (&[0xff], "/w"),
        (&[0xfb, 0xef, 0xbe], "++++"),
    ] {
        assert_eq!(encode(bytes), text.as_bytes());
        assert_eq!(decode(text.as_bytes()).as_deref(), Some(bytes));
    }
}

/// The values 0 to 63 one after another.
#[test]
fn alphabet() {
    let bits: Vec<u8> = (0..64u8)
        .flat_map(|value| (0..6).rev().map(move |bit| value >> bit & 1))
        .collect();
    let bytes: Vec<u8> = bits
        .chunks(8)
        .map(|eight| eight.iter().fold(0, |byte, bit| byte << 1 | bit))
        .collect();
    assert_eq!(encode(&bytes), ALPHABET.as_bytes());
    assert_eq!(decode(ALPHABET.as_bytes()), Some(bytes));
}

/// Of all texts of one and of two characters those of a byte are taken, 256 of them, and each is the text of its byte.
#[test]
fn every_text_of_two_characters() {
    let mut taken = 0;
    for one in 0..=255 {
        assert_eq!(decode(&[one]), None);
        for two in 0..=255 {
            let text = [one, two];
            if let Some(bytes) = decode(&text) {
                assert_eq!((bytes.len(), encode(&bytes)), (1, text.to_vec()));
                taken += 1;
            }
        }
    }
    assert_eq!(taken, 256);
}

#[test]
fn every_text_of_three_characters_of_the_alphabet() {
    let mut taken = 0;
    for one in ALPHABET.bytes() {
        for two in ALPHABET.bytes() {
            for three in ALPHABET.bytes() {
                let text = [one, two, three];
                if let Some(bytes) = decode(&text) {
                    assert_eq!((bytes.len(), encode(&bytes)), (2, text.to_vec()));
                    taken += 1;
                }
            }
        }
    }
    assert_eq!(taken, 1 << 16);
}

#[test]
fn every_length_is_read_back() {
    let mut random = Random::new(105);
    for len in 0..=1100 {
        let bytes = random.bytes(len);
        let text = encode(&bytes);
        assert_eq!(text.len() as u64, (4 * len).div_ceil(3));
        assert_eq!(decode(&text), Some(bytes), "length {len}");
    }
}

#[test]
fn bytes_outside_the_alphabet() {
    let inside = |byte: u8| ALPHABET.as_bytes().contains(&byte);
    for byte in (0..=255).filter(|byte| !inside(*byte)) {
        for place in 0..8 {
            let mut text = *b"FPucA9l+";
            text[place] = byte;
            assert_eq!(decode(&text), None, "byte {byte} at {place}");
        }
    }
}
