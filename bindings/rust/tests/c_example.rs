//! The example for C, by the header, prints what the README of the bindings says: so the header's
//! structs and functions are the library's.

use std::path::Path;
use std::process::Command;

/// The lines that stand in the README behind "It prints:", without their indent.
fn due(readme: &str) -> String {
    let (_, behind) = readme.split_once("It prints:\n\n").expect("the lines");
    behind
        .lines()
        .map_while(|line| line.strip_prefix("    "))
        .map(|line| format!("{line}\n"))
        .collect()
}

#[test]
fn the_example_for_c_prints_what_the_readme_says() {
    if Command::new("cc").arg("--version").output().is_err() {
        println!("no C compiler is here: the example for C is not compiled");
        return;
    }
    let bindings = Path::new(env!("CARGO_MANIFEST_DIR"))
        .parent()
        .expect("this crate lies in bindings/");
    let program = Path::new(env!("CARGO_TARGET_TMPDIR")).join("example");
    let compiled = Command::new("cc")
        .args(["-Wall", "-Wextra", "-Werror", "-std=c11", "-I../include"])
        .args(["c/example.c", env!("FELMUGO_LINKED"), "-o"])
        .arg(&program)
        .current_dir(bindings)
        .status();
    assert!(compiled.expect("cc runs").success());
    let run = Command::new(&program).output().expect("it runs");
    assert!(run.status.success());
    let printed = String::from_utf8(run.stdout).expect("text");
    assert_eq!(printed, due(include_str!("../../README.md")));
}
