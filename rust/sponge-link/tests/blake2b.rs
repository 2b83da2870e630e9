//! The permutation of twelve rounds against BLAKE2b as `b2sum` computes it.
//!
//! On a message of zeros the compression function adds no message word to anything, so it is the chaining
//! value, XORed with both halves of the permuted working state.

use sponge_link::{rounds, State, STARTING_WORDS};
use std::io::Write;
use std::process::{Command, Stdio};

/// What `b2sum` prints for `length` bytes of zeros, at a digest of `bits` bits.
fn b2sum_of_zeros(length: usize, bits: usize) -> String {
    let mut child = Command::new("b2sum")
        .args(["-l", &bits.to_string()])
        .stdin(Stdio::piped())
        .stdout(Stdio::piped())
        .spawn()
        .expect("b2sum has to be installed");
    let mut input = child.stdin.take().expect("the input is a pipe");
    input.write_all(&vec![0; length]).expect("b2sum reads");
    drop(input);
    let output = child.wait_with_output().expect("b2sum ends");
    assert!(output.status.success(), "b2sum failed");
    let text = String::from_utf8(output.stdout).expect("b2sum prints text");
    text.split_whitespace()
        .next()
        .expect("a digest")
        .to_string()
}

/// BLAKE2b of `length` zero bytes over the proved permutation.
fn digest_of_zeros(length: usize, bits: usize) -> String {
    let mut h = STARTING_WORDS;
    h[0] ^= 0x0101_0000 ^ (bits / 8) as u64;
    let blocks = length.div_ceil(128).max(1);
    for block in 1..=blocks {
        let last = block == blocks;
        let count = if last { length } else { 128 * block };
        let mut v: State = [0; 16];
        v[..8].copy_from_slice(&h);
        v[8..].copy_from_slice(&STARTING_WORDS);
        v[12] ^= count as u64;
        if last {
            v[14] = !v[14];
        }
        rounds(&mut v, 12, false);
        for i in 0..8 {
            h[i] ^= v[i] ^ v[i + 8];
        }
    }
    let bytes: Vec<u8> = h.iter().flat_map(|w| w.to_le_bytes()).collect();
    bytes[..bits / 8]
        .iter()
        .map(|b| format!("{b:02x}"))
        .collect()
}

fn agree(length: usize, bits: usize) {
    assert_eq!(
        digest_of_zeros(length, bits),
        b2sum_of_zeros(length, bits),
        "{length} bytes of zeros at {bits} bits"
    );
}

#[test]
fn messages_of_one_block() {
    for length in [0, 1, 2, 63, 64, 65, 127, 128] {
        agree(length, 512);
    }
}

#[test]
fn messages_of_several_blocks() {
    for length in [129, 255, 256, 257, 1000, 4096, 65_537] {
        agree(length, 512);
    }
}

#[test]
fn digests_of_other_lengths() {
    for bits in [8, 64, 128, 160, 256, 384, 504] {
        agree(128, bits);
        agree(300, bits);
    }
}

#[test]
fn no_rounds_change_nothing() {
    let mut state: State = std::array::from_fn(|i| (i as u64) << 32 | 7);
    let before = state;
    rounds(&mut state, 0, false);
    assert_eq!(state, before);
}

#[test]
fn rounds_compose() {
    let start: State = std::array::from_fn(|i| 0x0123_4567_89ab_cdef_u64.rotate_left(5 * i as u32));
    let mut once = start;
    rounds(&mut once, 12, false);
    let mut twice = start;
    rounds(&mut twice, 5, false);
    rounds(&mut twice, 7, false);
    assert_eq!(once, twice);
}
