//! Links libkemroul.a from the folder KEMROUL_ARCHIVE_DIR, or from target/staticlib of the repository.

use std::path::PathBuf;

fn main() {
    println!("cargo::rerun-if-env-changed=KEMROUL_ARCHIVE_DIR");
    let here = PathBuf::from(std::env::var_os("CARGO_MANIFEST_DIR").expect("cargo sets it"));
    let folder =
        std::env::var_os("KEMROUL_ARCHIVE_DIR").map_or_else(|| here.join("../../target/staticlib"), PathBuf::from);
    let archive = folder.join("libkemroul.a");
    println!("cargo::rerun-if-changed={}", archive.display());
    if !archive.is_file() {
        println!(
            "cargo::error=no {}: run `make archive` in the repository, or name its folder in KEMROUL_ARCHIVE_DIR",
            archive.display()
        );
    }
    println!("cargo::rustc-link-search=native={}", folder.display());
    println!("cargo::rustc-link-lib=static=kemroul");
}
