//! Argon2id is called rightly: a value of libargon2's own tests comes out.

use bench::argon2::Argon2;

/// Two passes over 256 KiB with one lane.
const DUE: &str = "9dfeb910e80bad0311fee20f9c0e2b12c17987b4cac90c2ef54d5b3021c68bfe";

/// Says so and passes where the library is not installed, since nothing but the benchmark uses it.
#[test]
fn a_known_value() {
    let Some(library) = Argon2::load() else {
        eprintln!("libargon2.so.1 is not installed, and nothing was tested");
        return;
    };
    let (mut key, mut memory) = ([0; 32], vec![1; 256 * 1024 / 8]);
    let answer = library.derive(2, b"password", b"somesalt", &mut key, &mut memory);
    assert_eq!(answer, Ok(()));
    let digits: String = key.iter().map(|byte| format!("{byte:02x}")).collect();
    assert_eq!(digits, DUE);
    let refused = library.derive(1, b"password", b"salt", &mut key, &mut memory);
    assert!(refused.is_err(), "a salt of four bytes was taken");
}
