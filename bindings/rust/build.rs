//! Links libfahireky.a: from the folder that FAHIREKY_LIB names, else from where `make` writes it.
use std::{env, path::PathBuf};

fn main() {
    let here = PathBuf::from(env::var_os("CARGO_MANIFEST_DIR").expect("cargo sets CARGO_MANIFEST_DIR"));
    let folder = here.join(env::var_os("FAHIREKY_LIB").unwrap_or("../../target/staticlib".into()));
    let archive = folder.join("libfahireky.a");
    println!("cargo::rerun-if-env-changed=FAHIREKY_LIB");
    println!("cargo::rerun-if-changed={}", archive.display());
    if !archive.is_file() {
        println!(
            "cargo::error={} is missing: run `make` in the repository's root, or set FAHIREKY_LIB to the folder of \
             libfahireky.a (an absolute path)",
            archive.display()
        );
        return;
    }
    println!("cargo::rustc-link-search=native={}", folder.display());
    println!("cargo::rustc-link-lib=static=fahireky");
}
