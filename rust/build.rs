//! Links the proved static library. `tests/staticlib exports` writes it, to target/staticlib/libexports.a of the repository;
//! PHAGDRULIS_LIBRARY names another folder to look in.

use std::env;
use std::path::PathBuf;

fn main() {
    println!("cargo:rerun-if-env-changed=PHAGDRULIS_LIBRARY");
    let folder = match env::var_os("PHAGDRULIS_LIBRARY") {
        Some(folder) => PathBuf::from(folder),
        None => PathBuf::from(env::var_os("CARGO_MANIFEST_DIR").expect("cargo sets it")).join("../target/staticlib"),
    };
    let archive = folder.join("libexports.a");
    println!("cargo:rerun-if-changed={}", archive.display());
    if !archive.is_file() {
        panic!("{} isn't there: `tests/staticlib exports` in the repository's root writes it", archive.display());
    }
    println!("cargo:rustc-link-search=native={}", folder.display());
    println!("cargo:rustc-link-lib=static=exports");
}
