//! Everything that is measured, in one form.

use crate::argon2::Argon2;
use crate::lent::Lent;
use crate::{intrinsics, speed};
use derivation_link::Proved;
use lyra2_reference::vectors::{Reference, Subject};
use lyra2_reference::Inputs;

/// The name of the library's plain derivation.
pub const PLAIN: &str = "this library, plain";
/// The name of the program that the first ratio is to.
pub const RUST_FOR_SPEED: &str = "Rust for speed";
/// The name of the program that the second ratio is to.
pub const C_SSE2: &str = "C, SSE2";
/// The name of the other function.
pub const ARGON2ID: &str = "Argon2id of libargon2";

/// What a program does with the inputs and the buffers.
type Derive = Box<dyn Fn(&Inputs, &mut Lent)>;

/// A program under measurement.
pub struct Program {
    /// What the tables call it.
    pub name: &'static str,
    /// Whether it computes Lyra2, and so has to agree with the others.
    pub lyra2: bool,
    /// The number of lanes, where it is not the single sponge.
    pub lanes: Option<u64>,
    /// Whether it leaves its end matrix and a record, as the recorded derivation does; the others of Lyra2 leave zeros.
    pub keeps_matrix: bool,
    /// Whether it is drawn in the picture of time against memory.
    pub drawn: bool,
    /// The derivation.
    pub derive: Derive,
}

impl Program {
    fn lyra2(name: &'static str, drawn: bool, derive: fn(&Inputs, &mut Lent)) -> Program {
        Program {
            name,
            lyra2: true,
            lanes: None,
            keeps_matrix: false,
            drawn,
            derive: Box::new(derive),
        }
    }
}

/// The programs that can run here, and a line for each that can't.
pub fn all() -> (Vec<Program>, Vec<&'static str>) {
    let mut programs = vec![
        Program::lyra2(PLAIN, true, proved),
        Program {
            keeps_matrix: true,
            ..Program::lyra2("this library, recorded", false, proved_recorded)
        },
        Program::lyra2("this library, check", false, proved_check),
        Program::lyra2("second program, Rust", false, second),
        Program::lyra2(RUST_FOR_SPEED, true, for_speed),
        Program::lyra2(C_SSE2, true, sse2),
    ];
    let mut missing = Vec::new();
    if intrinsics::has_avx2() {
        programs.push(Program::lyra2("C, AVX2", true, avx2));
    } else {
        missing.push("C, AVX2: left out, for this processor has no AVX2.");
    }
    match Argon2::load() {
        Some(library) => programs.push(argon2id(library)),
        None => missing.push("Argon2id: left out, for libargon2.so.1 is not installed."),
    }
    (programs, missing)
}

fn proved(inputs: &Inputs, lent: &mut Lent) {
    let (key, matrix) = lent.key_and_matrix();
    let answer = Proved.derive(inputs, key, matrix);
    answer.expect("no check refuses");
}

fn proved_recorded(inputs: &Inputs, lent: &mut Lent) {
    let (key, matrix, record) = lent.all();
    let answer = Proved.derive_recorded(inputs, key, matrix, record);
    let answer = answer.expect("the library has this operation");
    answer.expect("no check refuses");
}

/// A check stores no key; the key that it says yes to stands for one.
fn proved_check(inputs: &Inputs, lent: &mut Lent) {
    let stored = lent.stored;
    let answer = Proved.check(inputs, &stored, lent.matrix());
    if answer.expect("no check refuses").matches {
        lent.key = stored;
    }
}

fn second(inputs: &Inputs, lent: &mut Lent) {
    let (key, matrix) = lent.key_and_matrix();
    let answer = Reference.derive(inputs, key, matrix);
    answer.expect("no check refuses");
}

fn for_speed(inputs: &Inputs, lent: &mut Lent) {
    let (key, matrix) = lent.key_and_matrix();
    speed::derive(inputs, key, matrix);
}

fn sse2(inputs: &Inputs, lent: &mut Lent) {
    let (key, matrix) = lent.key_and_matrix();
    intrinsics::derive_sse2(inputs, key, matrix);
}

fn avx2(inputs: &Inputs, lent: &mut Lent) {
    let (key, matrix) = lent.key_and_matrix();
    intrinsics::derive_avx2(inputs, key, matrix);
}

/// Argon2id with T passes, over as much memory as the matrix has.
fn argon2id(library: Argon2) -> Program {
    let derive = move |inputs: &Inputs, lent: &mut Lent| {
        let (key, memory) = lent.key_and_matrix();
        let answer = library.derive(inputs.t as u32, inputs.password, inputs.salt, key, memory);
        answer.expect("libargon2 takes these inputs");
    };
    Program {
        name: ARGON2ID,
        lyra2: false,
        lanes: None,
        keeps_matrix: false,
        drawn: true,
        derive: Box::new(derive),
    }
}
