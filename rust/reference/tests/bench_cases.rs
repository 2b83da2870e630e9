//! The bench cases of document 01.

use lyra2_reference::input::padded_input;
use lyra2_reference::sponge::g;
use lyra2_reference::walk::SetupWalk;
use lyra2_reference::{
    check, cost, derive, derive_recorded, walk, Counts, Inputs, Mixer, Parameters, Settings,
};

const SALT: [u8; 8] = [0xc3; 8];

fn parameters(key_len: u64, password_len: u64) -> Parameters {
    Parameters {
        key_len,
        password_len,
        salt_len: 8,
        t: 1,
        r: 3,
        c: 1,
    }
}

fn padded(password_len: u64) -> Vec<u8> {
    let password = vec![0x5a; password_len as usize];
    padded_input(&password, &SALT, &parameters(32, password_len))
}

#[test]
fn g_of_one_and_zeros() {
    let expected = [
        0x101,
        0x0202000200020200,
        0x0101000100010000,
        0x0101000000010000,
    ];
    assert_eq!(g([1, 0, 0, 0], Mixer::Plain), expected);
    assert_eq!(g([0; 4], Mixer::Plain), [0; 4]);
}

#[test]
fn rows_revisited_for_rows_8_to_15() {
    let answers: Vec<_> = (8..=15).map(|row0| walk(16, row0).unwrap()).collect();
    assert_eq!(answers, [0, 3, 6, 1, 4, 7, 2, 5]);
}

#[test]
fn step_for_windows_16_and_32() {
    let mut walk = SetupWalk::start();
    for row0 in 3..16_384 {
        match walk.wnd() {
            16 => assert_eq!(walk.stp(), 5),
            32 => assert_eq!(walk.stp(), 7),
            _ => (),
        }
        walk.advance(row0);
    }
    assert!(walk.wnd() > 32);
}

#[test]
fn padding_of_the_input() {
    let empty = padded(0);
    assert_eq!(empty.len(), 64);
    assert_eq!(empty[32], 0x80);
    assert_eq!(empty[33..63], [0; 30]);
    assert_eq!(empty[63], 0x01);

    let one_byte_left = padded(31);
    assert_eq!(one_byte_left.len(), 64);
    assert_eq!(one_byte_left[63], 0x81);

    let full_block = padded(32);
    assert_eq!(full_block.len(), 128);
    assert_eq!(full_block[64], 0x80);
    assert_eq!(full_block[65..127], [0; 62]);
    assert_eq!(full_block[127], 0x01);
}

#[test]
fn layout_of_the_input() {
    let given = Parameters {
        key_len: 0x0102,
        password_len: 3,
        salt_len: 8,
        t: 0xfe,
        r: 0x1234,
        c: 0x0100,
    };
    let input = padded_input(b"abc", b"saltsalt", &given);
    let expected = [
        b"abcsaltsalt".as_slice(),
        &[0x02, 0x01, 0, 0, 3, 0, 0, 0, 8, 0, 0, 0],
        &[0xfe, 0, 0, 0, 0x34, 0x12, 0, 0, 0, 0x01, 0, 0],
        &[0x80],
        &[0; 27],
        &[0x01],
    ];
    assert_eq!(input, expected.concat());
}

#[test]
fn counts_of_two_small_derivations() {
    let small = Counts {
        full: 2,
        reduced: 6,
        rounds: 30,
    };
    assert_eq!(cost(&parameters(32, 31), 1), Ok(small));
    assert_eq!(cost(&parameters(97, 32), 1).unwrap().full, 4);

    let inputs = |password| Inputs {
        password,
        salt: &SALT,
        t: 1,
        r: 3,
        c: 1,
        settings: Settings::USUAL,
    };
    let counts = derive(&inputs(&[7; 31]), &mut [0; 32], &mut [0; 36]);
    assert_eq!(counts, Ok(small));
    let counts = derive(&inputs(&[7; 32]), &mut [0; 97], &mut [0; 36]);
    assert_eq!(counts.unwrap().full, 4);
}

/// Runs all four operations on buffers that fit exactly; none of them may refuse.
fn accept(password_len: usize, salt_len: usize, key_len: usize, t: u64, r: u64, c: u64) {
    let inputs = Inputs {
        password: &vec![1; password_len],
        salt: &vec![2; salt_len],
        t,
        r,
        c,
        settings: Settings::USUAL,
    };
    let given = inputs.parameters(key_len);
    let mut key = vec![0; key_len];
    let mut matrix = vec![0; given.matrix_words() as usize];
    let mut record = vec![0; given.record_words() as usize];
    let recorded = derive_recorded(&inputs, &mut key, &mut matrix, &mut record).unwrap();
    assert_eq!(cost(&given, 1), Ok(recorded.counts));
    assert_eq!(derive(&inputs, &mut key, &mut matrix), Ok(recorded.counts));
    let answer = check(&inputs, &key, &mut matrix).unwrap();
    assert!(answer.matches);
    assert_eq!(answer.counts, recorded.counts);
}

#[test]
fn accepted_extremes() {
    accept(31, 8, 1, 1, 3, 1);
    accept(31, 8, 1024, 1, 3, 1);
    accept(0, 8, 32, 1, 3, 1);
    accept(1024, 8, 32, 1, 3, 1);
    accept(31, 64, 32, 1, 3, 1);
    accept(31, 8, 32, 0, 3, 1);
    accept(31, 8, 32, 255, 3, 1);
    accept(31, 8, 32, 1, 16_384, 1);
    accept(31, 8, 32, 1, 3, 256);
    accept(1024, 64, 1024, 255, 3, 256);
}

#[test]
fn smallest_buffers() {
    let given = parameters(32, 31);
    assert_eq!(given.matrix_words(), 36);
    assert_eq!(given.record_words(), 6);
}
