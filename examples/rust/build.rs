//! Links libdiscgauze.a: from the folder that DISCGAUZE_LIBRARY names, else from target/library, where `make library` puts it.
use std::path::PathBuf;

fn main() {
    let here = PathBuf::from(std::env::var("CARGO_MANIFEST_DIR").unwrap());
    let folder = match std::env::var("DISCGAUZE_LIBRARY") {
        Ok(folder) => PathBuf::from(folder),
        Err(_) => here.join("../../target/library"),
    };
    println!("cargo:rerun-if-env-changed=DISCGAUZE_LIBRARY");
    println!("cargo:rerun-if-changed={}", folder.join("libdiscgauze.a").display());
    println!("cargo:rustc-link-search=native={}", folder.display());
    println!("cargo:rustc-link-lib=static=discgauze");
}
