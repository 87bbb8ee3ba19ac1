//! Compiles c/fdlibm.c as a C compiler does for release, and links it.

use std::path::Path;
use std::process::Command;

fn run(command: &mut Command) {
    let status = command.status().unwrap_or_else(|fault| panic!("{command:?}: {fault}"));
    assert!(status.success(), "{command:?}");
}

fn main() {
    println!("cargo::rerun-if-changed=c/fdlibm.c");
    println!("cargo::rerun-if-env-changed=CC");
    let compiler = std::env::var("CC").unwrap_or("gcc".to_string());
    let out = std::env::var("OUT_DIR").expect("cargo sets it");
    let out = Path::new(&out);
    // Without contraction each operation is rounded once, on every processor.
    let flags = ["-O2", "-ffp-contract=off", "-fPIC", "-Wall", "-c", "c/fdlibm.c", "-o"];
    run(Command::new(compiler).args(flags).arg(out.join("fdlibm.o")));
    run(Command::new("ar")
        .arg("rcs")
        .arg(out.join("libfdlibm_c.a"))
        .arg(out.join("fdlibm.o")));
    println!("cargo::rustc-link-search=native={}", out.display());
    println!("cargo::rustc-link-lib=static=fdlibm_c");
}
