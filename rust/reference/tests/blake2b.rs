//! The permutation against the machine's `b2sum`, an implementation that nobody of this project made.
//!
//! BLAKE2b adds the message words inside G. On an all-zero message they add nothing, so its digest
//! can be had from the sponge's rounds. A machine without `b2sum` fails these tests.

use lyra2_reference::sponge::{round, FULL_ROUNDS, STARTING_WORDS};
use lyra2_reference::Mixer;
use std::io::Write;
use std::process::{Command, Stdio};

const BLOCK_BYTES: u64 = 128;

/// BLAKE2b's compression of an all-zero block.
fn compress(chain: &mut [u64; 8], bytes_so_far: u64, last: bool) {
    let mut state = [0; 16];
    state[..8].copy_from_slice(chain);
    state[8..].copy_from_slice(&STARTING_WORDS);
    state[12] ^= bytes_so_far;
    if last {
        state[14] = !state[14];
    }
    for _ in 0..FULL_ROUNDS {
        round(&mut state, Mixer::Plain);
    }
    for i in 0..8 {
        chain[i] ^= state[i] ^ state[i + 8];
    }
}

/// BLAKE2b of this many zero bytes, as hexadecimal digits.
fn digest_of_zeros(message_bytes: u64, digest_bytes: u64) -> String {
    let mut chain = STARTING_WORDS;
    chain[0] ^= 0x0101_0000 ^ digest_bytes;
    let blocks = message_bytes.div_ceil(BLOCK_BYTES).max(1);
    for block in 1..=blocks {
        let bytes_so_far = message_bytes.min(block * BLOCK_BYTES);
        compress(&mut chain, bytes_so_far, block == blocks);
    }
    let bytes = chain.map(u64::to_le_bytes);
    bytes.as_flattened()[..digest_bytes as usize]
        .iter()
        .map(|byte| format!("{byte:02x}"))
        .collect()
}

/// The same, asked of the program.
fn b2sum_of_zeros(message_bytes: u64, digest_bytes: u64) -> String {
    let mut child = Command::new("b2sum")
        .args(["-l", &(8 * digest_bytes).to_string(), "-"])
        .stdin(Stdio::piped())
        .stdout(Stdio::piped())
        .spawn()
        .expect("b2sum must be installed for this test");
    let mut stdin = child.stdin.take().expect("a piped standard input");
    stdin
        .write_all(&vec![0; message_bytes as usize])
        .expect("b2sum reads its input");
    drop(stdin);
    let output = child.wait_with_output().expect("b2sum ends");
    assert!(output.status.success(), "b2sum failed");
    let text = String::from_utf8(output.stdout).expect("b2sum prints text");
    text.split(' ').next().unwrap_or_default().to_string()
}

fn compare(message_bytes: u64, digest_bytes: u64) {
    assert_eq!(
        digest_of_zeros(message_bytes, digest_bytes),
        b2sum_of_zeros(message_bytes, digest_bytes),
        "{message_bytes} zero bytes, digest of {digest_bytes}"
    );
}

#[test]
fn one_block_of_every_length() {
    for message_bytes in 0..=BLOCK_BYTES {
        compare(message_bytes, 64);
    }
}

#[test]
fn every_digest_length() {
    for digest_bytes in 1..=64 {
        compare(64, digest_bytes);
    }
}

#[test]
fn several_blocks() {
    for message_bytes in [129, 255, 256, 257, 1000, 1024, 4097, 100_000] {
        compare(message_bytes, 64);
        compare(message_bytes, 20);
    }
}
