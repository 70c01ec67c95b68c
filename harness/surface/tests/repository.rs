//! The repository's crates, held against docs/CONTRACTS.md.

use std::fs;
use std::path::PathBuf;

use surface::{libraries, wrong, Page};

fn repository() -> PathBuf {
    PathBuf::from(env!("CARGO_MANIFEST_DIR")).join("../..")
}

#[test]
fn every_public_function_is_an_entry_or_core() {
    let text = fs::read_to_string(repository().join("docs/CONTRACTS.md")).expect("the page");
    let page = Page::read(&text).unwrap_or_else(|error| panic!("docs/CONTRACTS.md: {error}"));
    let libraries =
        libraries(&repository().join("crates")).unwrap_or_else(|error| panic!("{error}"));
    let wrong = wrong(&page, &libraries);
    assert!(wrong.is_empty(), "docs/CONTRACTS.md:\n{}", wrong.join("\n"));
}

#[test]
fn every_line_that_begins_a_public_function_is_read() {
    let folder = repository().join("crates");
    for library in libraries(&folder).unwrap_or_else(|error| panic!("{error}")) {
        let files = fs::read_dir(folder.join(&library.name).join("src")).expect("a folder");
        let texts =
            files.map(|file| fs::read_to_string(file.expect("a file").path()).expect("text"));
        let begins = |line: &&str| {
            let line = line.trim_start();
            line.starts_with("pub fn ") || line.starts_with("pub extern \"C\" fn ")
        };
        let lines: usize = texts.map(|text| text.lines().filter(begins).count()).sum();
        let functions = library.functions.iter();
        // What a type has by a trait does not begin with `pub`.
        let own = functions.filter(|f| !f.name.contains(">::")).count();
        assert_eq!(own, lines, "crate {}", library.name);
    }
}
