//! The stored cases, which programs of the repository replay.

use std::path::Path;

use olavm::Reference;
use programs::{container, Text};

#[test]
fn the_stored_cases_are_what_is_written() {
    let Some(rust) = Reference::find() else {
        return;
    };
    let crates = Path::new(env!("CARGO_MANIFEST_DIR")).join("../../crates");
    for text in Text::ALL {
        let file = crates.join(format!("{}_cases/stdin", text.program()));
        let stored = std::fs::read(&file).ok();
        let is_same = stored == Some(container::file(rust, text));
        assert!(is_same, "write {} anew", file.display());
    }
}
