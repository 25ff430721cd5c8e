//! Finds client.rs, which is not in this repository, beside it.
use std::{env, path::Path};

fn main() {
    let here = env::var("CARGO_MANIFEST_DIR").unwrap();
    let file = Path::new(&here).join("../../../shared/documents/src/client.rs");
    let file = file.canonicalize().expect("client.rs beside the repository, in ../shared/documents/src");
    println!("cargo:rerun-if-changed={}", file.display());
    println!("cargo:rustc-env=CLIENT_RS={}", file.display());
}
