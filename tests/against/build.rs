//! Links libvlomdar.a from the folder that VLOMDAR_LIB names (relative to tests/), or from where `make` puts it.

use std::{env, path::Path, process::exit};

fn main() {
    println!("cargo:rerun-if-env-changed=VLOMDAR_LIB");
    let tests = Path::new(&env::var("CARGO_MANIFEST_DIR").unwrap()).join("..");
    let folder = tests.join(env::var("VLOMDAR_LIB").unwrap_or_else(|_| "../target/staticlib".into()));
    let archive = folder.join("libvlomdar.a");
    println!("cargo:rerun-if-changed={}", archive.display());
    if !archive.exists() {
        eprintln!("no archive {}: make it with `make`, or set VLOMDAR_LIB to its folder", archive.display());
        exit(1);
    }
    println!("cargo:rustc-link-search=native={}", folder.display());
    println!("cargo:rustc-link-lib=static=vlomdar");
}
