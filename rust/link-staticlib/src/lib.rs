//! Links a static library that `scripts/library.sh` makes; for build scripts.

#![forbid(unsafe_code)]

use std::path::PathBuf;

/// Links `target/staticlib/lib<library>.a` of the repository, or ends the build if it is missing.
pub fn link(library: &str) {
    let folder = PathBuf::from(std::env::var("CARGO_MANIFEST_DIR").expect("cargo sets this"))
        .join("../../target/staticlib");
    let archive = folder.join(format!("lib{library}.a"));
    println!("cargo:rerun-if-changed={}", archive.display());
    if !archive.is_file() {
        eprintln!(
            "target/staticlib/lib{library}.a is missing: run `scripts/library.sh {library}` first"
        );
        std::process::exit(1);
    }
    println!("cargo:rustc-link-search=native={}", folder.display());
    println!("cargo:rustc-link-lib=static={library}");
}
