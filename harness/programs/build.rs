//! Compiles the library that is preloaded into a program whose reads and writes are to fail.

use std::env;
use std::path::PathBuf;
use std::process::Command;

const SOURCE: &str = "preload/faulty.rs";

fn main() {
    println!("cargo::rerun-if-changed=build.rs");
    println!("cargo::rerun-if-changed={SOURCE}");
    let variable = |name: &str| env::var_os(name).unwrap_or_else(|| panic!("cargo sets {name}"));
    let library = PathBuf::from(variable("OUT_DIR")).join("libfaulty.so");
    let status = Command::new(variable("RUSTC"))
        .args([
            "--crate-type",
            "cdylib",
            "--edition",
            "2021",
            "-O",
            "-C",
            "panic=abort",
        ])
        .args(["--crate-name", "faulty", SOURCE])
        .arg("--target")
        .arg(variable("TARGET"))
        .arg("-o")
        .arg(&library)
        .status();
    match status {
        Ok(status) if status.success() => {}
        outcome => println!("cargo::error={SOURCE} is not compiled: {outcome:?}"),
    }
    println!("cargo::rustc-env=FAULTY_LIBRARY={}", library.display());
}
