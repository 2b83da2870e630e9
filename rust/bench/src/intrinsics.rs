//! The plain derivation in C with intrinsics, of c/lyra2.c, with either mixer. It has the usual rounds and rotation alone.

use lyra2_reference::refusal::check_matrix;
use lyra2_reference::{Inputs, Mixer, Settings};

/// Derivation of c/lyra2.c: what is asked, and the lent buffers.
#[repr(C)]
struct Derivation {
    key: *mut u8,
    key_len: usize,
    password: *const u8,
    password_len: usize,
    salt: *const u8,
    salt_len: usize,
    t: u32,
    r: u32,
    c: u32,
    matrix: *mut u64,
}

type Foreign = unsafe extern "C" fn(*const Derivation);

extern "C" {
    fn bench_derive_sse2(asked: *const Derivation);
    fn bench_derive_sse2_blamka(asked: *const Derivation);
    fn bench_derive_avx2(asked: *const Derivation);
    fn bench_derive_avx2_blamka(asked: *const Derivation);
}

/// The derivation with SSE2, for inputs and buffers that no check refuses, with the usual rounds and rotation.
pub fn derive_sse2(inputs: &Inputs, key: &mut [u8], matrix: &mut [u64]) {
    let foreign: Foreign = match inputs.settings.mixer {
        Mixer::Plain => bench_derive_sse2,
        Mixer::BlaMka => bench_derive_sse2_blamka,
    };
    derive(foreign, inputs, key, matrix);
}

/// The derivation with AVX2, for inputs and buffers that no check refuses, with the usual rounds and rotation.
pub fn derive_avx2(inputs: &Inputs, key: &mut [u8], matrix: &mut [u64]) {
    assert!(has_avx2(), "this processor has no AVX2");
    let foreign: Foreign = match inputs.settings.mixer {
        Mixer::Plain => bench_derive_avx2,
        Mixer::BlaMka => bench_derive_avx2_blamka,
    };
    derive(foreign, inputs, key, matrix);
}

/// Whether the C programs have these settings.
pub fn have(settings: Settings) -> bool {
    let Settings { rho, omega, .. } = Settings::USUAL;
    (settings.rho, settings.omega) == (rho, omega)
}

/// Whether the processor has AVX2.
pub fn has_avx2() -> bool {
    std::arch::is_x86_feature_detected!("avx2")
}

fn derive(foreign: Foreign, inputs: &Inputs, key: &mut [u8], matrix: &mut [u64]) {
    let usual = have(inputs.settings);
    assert!(
        usual,
        "the C programs have the usual rounds and rotation alone"
    );
    check_matrix(&inputs.parameters(key.len()), inputs.settings, matrix).expect("no check refuses");
    let asked = Derivation {
        key: key.as_mut_ptr(),
        key_len: key.len(),
        password: inputs.password.as_ptr(),
        password_len: inputs.password.len(),
        salt: inputs.salt.as_ptr(),
        salt_len: inputs.salt.len(),
        t: inputs.t as u32,
        r: inputs.r as u32,
        c: inputs.c as u32,
        matrix: matrix.as_mut_ptr(),
    };
    // SAFETY: the checks bound T, R, C and the lengths, so that the function stays inside the key and the first
    // 12·R·C words of the matrix, and the processor has its instructions.
    unsafe { foreign(&asked) }
}
