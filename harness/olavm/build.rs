//! Finds the listed Rust files and writes the module items that compile them unchanged.

use std::path::{Path, PathBuf};
use std::{env, fs};

/// The folder of the files, where it is not the one beside the repository.
const SOURCE_VARIABLE: &str = "FELMUGO_RUST_SOURCE";

/// The listed modules, by the module that holds them.
const MODULES: [(&str, &[&str]); 2] = [
    (
        "cpu",
        &[
            "columns",
            "cpu_stark",
            "simple_arithmatic_op",
            "tape",
            "call_sc",
        ],
    ),
    ("stark", &["constraint_consumer", "vars"]),
];

fn main() {
    println!("cargo::rustc-check-cfg=cfg(olavm_source)");
    println!("cargo::rerun-if-changed=build.rs");
    println!("cargo::rerun-if-env-changed={SOURCE_VARIABLE}");

    let source = source_folder();
    println!("cargo::rustc-env=OLAVM_SOURCE={}", source.display());

    let out = PathBuf::from(env::var_os("OUT_DIR").expect("cargo sets OUT_DIR"));
    let mut complete = true;
    for (parent, children) in MODULES {
        let mut items = String::new();
        for child in children {
            let file = source.join(format!("src--circuits--src--{parent}--{child}.rs.txt"));
            println!("cargo::rerun-if-changed={}", file.display());
            complete &= file.is_file();
            items += &format!("#[path = {file:?}]\npub(crate) mod {child};\n");
        }
        fs::write(out.join(format!("{parent}.rs")), items).expect("OUT_DIR can be written");
    }
    if complete {
        println!("cargo::rustc-cfg=olavm_source");
    }
}

fn source_folder() -> PathBuf {
    let manifest = env::var_os("CARGO_MANIFEST_DIR").expect("cargo sets CARGO_MANIFEST_DIR");
    let repository = Path::new(&manifest)
        .ancestors()
        .nth(2)
        .expect("this crate lies two folders down");
    match env::var_os(SOURCE_VARIABLE) {
        Some(folder) => repository.join(folder),
        None => repository.with_file_name("shared").join("docs/src"),
    }
}
