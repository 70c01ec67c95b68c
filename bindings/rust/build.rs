//! Links the library of the exported functions.

use std::env;
use std::path::{Path, PathBuf};

fn main() {
    println!("cargo::rerun-if-changed=build.rs");
    println!("cargo::rerun-if-env-changed=FELMUGO_LIB");
    let library = library();
    println!("cargo::rerun-if-changed={}", library.display());
    println!("cargo::rustc-env=FELMUGO_LINKED={}", library.display());
    if library.is_file() {
        link(&library);
    } else {
        println!(
            "cargo::error={} is not there: run `tools/build ffi` in the repository's root, \
             or name the library's file by FELMUGO_LIB",
            library.display()
        );
    }
}

/// The file that FELMUGO_LIB names, else the one that `tools/build ffi` makes.
fn library() -> PathBuf {
    let manifest = env::var_os("CARGO_MANIFEST_DIR").expect("cargo sets CARGO_MANIFEST_DIR");
    let repository = Path::new(&manifest)
        .ancestors()
        .nth(2)
        .expect("this crate lies two folders down");
    env::var_os("FELMUGO_LIB").map_or_else(
        || repository.join("target/staticlib/libffi.a"),
        PathBuf::from,
    )
}

/// Links `FOLDER/libNAME.a` as NAME of FOLDER.
fn link(library: &Path) {
    let folder = library.parent().expect("a file lies in a folder");
    let stem = library.file_stem().expect("a file has a name");
    let stem = stem.to_string_lossy();
    let name = stem.strip_prefix("lib").unwrap_or(&stem);
    println!("cargo::rustc-link-search=native={}", folder.display());
    println!("cargo::rustc-link-lib=static={name}");
}
