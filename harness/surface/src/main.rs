//! `surface`: prints the rows of docs/CONTRACTS.md's table as they have to be, and what is wrong.

use std::fs;
use std::path::Path;
use std::process::ExitCode;

use surface::{libraries, row, wrong, Page};

fn main() -> ExitCode {
    let repository = Path::new(env!("CARGO_MANIFEST_DIR")).join("../..");
    match told(&repository) {
        Ok(wrong) => ExitCode::from(wrong as u8),
        Err(error) => {
            eprintln!("{error}");
            ExitCode::FAILURE
        }
    }
}

/// Whether something is wrong.
fn told(repository: &Path) -> Result<bool, String> {
    let text = fs::read_to_string(repository.join("docs/CONTRACTS.md"));
    let page = Page::read(&text.map_err(|error| error.to_string())?)?;
    let libraries = libraries(&repository.join("crates"))?;
    for library in &libraries {
        row(&page, library).inspect(|row| println!("{row}"));
    }
    let wrong = wrong(&page, &libraries);
    for fault in &wrong {
        eprintln!("{fault}");
    }
    Ok(!wrong.is_empty())
}
