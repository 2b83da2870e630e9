//! Compiles c/lyra2.c for every x86-64 processor and for those with AVX2, with each mixer, and notes the compilers.

use std::path::{Path, PathBuf};
use std::process::Command;

/// The name of an object file and of the function in it, and the options that make it.
const OBJECTS: [(&str, &[&str]); 4] = [
    ("bench_derive_sse2", &["-DBLAMKA=0"]),
    ("bench_derive_sse2_blamka", &["-DBLAMKA=1"]),
    ("bench_derive_avx2", &["-DBLAMKA=0", "-mavx2"]),
    ("bench_derive_avx2_blamka", &["-DBLAMKA=1", "-mavx2"]),
];

fn main() {
    println!("cargo:rerun-if-changed=build.rs");
    println!("cargo:rerun-if-changed=c");
    let folder = PathBuf::from(variable("OUT_DIR"));
    let objects = OBJECTS.map(|(name, options)| compile(&folder, name, options));
    let archive = folder.join("libbench_c.a");
    // An archive of an earlier build could still hold other objects.
    let _ = std::fs::remove_file(&archive);
    run(Command::new("ar").arg("crs").arg(archive).args(objects));
    println!("cargo:rustc-link-search=native={}", folder.display());
    println!("cargo:rustc-link-lib=static=bench_c");
    let rustc = variable("RUSTC");
    println!("cargo:rustc-env=RUST_COMPILER={}", first_line(&rustc));
    println!("cargo:rustc-env=C_COMPILER={}", first_line("cc"));
}

fn compile(folder: &Path, name: &str, options: &[&str]) -> PathBuf {
    let object = folder.join(name).with_extension("o");
    let common = ["-O3", "-std=c11", "-Wall", "-Wextra", "-fPIC", "-c"];
    let mut cc = Command::new("cc");
    cc.args(common)
        .args(options)
        .arg(format!("-DDERIVE={name}"));
    run(cc.arg("c/lyra2.c").arg("-o").arg(&object));
    object
}

/// Runs a command, or ends the build with a line that says what is missing or failed.
fn run(command: &mut Command) {
    let name = command.get_program().to_owned();
    match command.status() {
        Ok(status) if status.success() => return,
        Ok(status) => eprintln!("{}: {status}", name.display()),
        Err(error) => eprintln!(
            "the C programs of the benchmark need `{}`: {error}",
            name.display()
        ),
    }
    std::process::exit(1);
}

/// The first line of what a compiler says of its version.
fn first_line(compiler: &str) -> String {
    let output = Command::new(compiler).arg("--version").output();
    let output = output.map(|output| output.stdout).unwrap_or_default();
    let text = String::from_utf8_lossy(&output);
    text.lines().next().unwrap_or("unknown").to_string()
}

fn variable(name: &str) -> String {
    std::env::var(name).expect("cargo sets this")
}
