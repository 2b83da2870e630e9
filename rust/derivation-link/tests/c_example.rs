//! What examples/derive_and_check.c and examples/lanes.c are due to print, which tests/c_example.sh holds them to, is the
//! second program's.

use lyra2_reference::{
    check, derive, lanes_check, lanes_derive, Counts, Inputs, LaneInputs, Refusal, Settings,
};

const INPUTS: Inputs = Inputs {
    password: b"correct horse",
    salt: b"salt of 16 bytes",
    t: 1,
    r: 256,
    c: 64,
    settings: Settings::USUAL,
};
const MATRIX_WORDS: usize = 12 * 256 * 64;

fn due(example: &str) -> String {
    let folder = concat!(env!("CARGO_MANIFEST_DIR"), "/../../examples");
    let text = std::fs::read_to_string(format!("{folder}/{example}.out"));
    text.expect("the repository has the example's output")
}

fn cost(counts: Counts) -> String {
    format!(
        "cost: {} full calls, {} reduced calls, {} rounds, {} bytes of matrix\n",
        counts.full,
        counts.reduced,
        counts.rounds,
        8 * MATRIX_WORDS
    )
}

fn key_line(key: &[u8]) -> String {
    let digits: String = key.iter().map(|byte| format!("{byte:02x}")).collect();
    format!("key: {digits}\n")
}

fn answer(what: &str, yes: bool) -> String {
    format!("{what}: {}\n", if yes { "yes" } else { "no" })
}

#[test]
fn the_output_of_the_c_example_is_the_second_programs() -> Result<(), Refusal> {
    let mut key = [0; 32];
    let mut matrix = vec![0; MATRIX_WORDS];
    let counts = derive(&INPUTS, &mut key, &mut matrix)?;
    let shown = key_line(&key);
    let right = check(&INPUTS, &key, &mut matrix)?.matches;
    key[0] ^= 1;
    let wrong = check(&INPUTS, &key, &mut matrix)?.matches;
    let lines = [
        cost(counts),
        shown,
        answer("this key", right),
        answer("with a bit changed", wrong),
    ];
    assert_eq!(due("derive_and_check"), lines.concat());
    Ok(())
}

#[test]
fn the_output_of_the_c_example_of_lanes_is_the_second_programs() -> Result<(), Refusal> {
    let Inputs {
        password,
        salt,
        t,
        r,
        c,
        ..
    } = INPUTS;
    let with = |p| LaneInputs {
        password,
        salt,
        t,
        r,
        c,
        p,
    };
    let mut key = [0; 32];
    let mut matrix = vec![0; MATRIX_WORDS];
    let counts = lanes_derive(&with(4), &mut key, &mut matrix)?;
    let mut lines = vec![cost(counts), key_line(&key)];
    for p in 1..=8 {
        match lanes_check(&with(p), &key, &mut matrix) {
            Err(Refusal::Lanes) => (),
            checked => lines.push(answer(&format!("lanes {p}"), checked?.matches)),
        }
    }
    let single = check(&INPUTS, &key, &mut matrix)?.matches;
    lines.push(answer("the single sponge", single));
    assert_eq!(due("lanes"), lines.concat());
    Ok(())
}
