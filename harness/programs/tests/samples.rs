//! The repository's folder `samples`.

use std::path::Path;

use olavm::Reference;
use programs::samples::{self, Sample};

#[test]
fn the_samples_are_what_is_written() {
    let Some(rust) = Reference::find() else {
        return;
    };
    let folder = Path::new(env!("CARGO_MANIFEST_DIR")).join("../../samples");
    for Sample { name, files } in samples::all(rust) {
        for (ending, content) in files {
            let file = format!("{name}.{ending}");
            assert_eq!(
                std::fs::read(folder.join(&file)).ok(),
                Some(content),
                "{file}"
            );
        }
    }
}
