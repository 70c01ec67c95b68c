//! Small inputs for who tries the programs, kept in the repository's folder `samples`.

use std::fs;
use std::io;
use std::path::Path;

use fields::Plain;
use olavm::{Reference, COLUMNS};
use pairs::columns::{AUX0, PC, REGS, SELECTORS};
use pairs::kinds::Kind;
use pairs::{masks, Rng, Run};

use crate::{expected, input, Text};

/// The good run: 24 rows of the masks 2^0 to 2^24 and 15 sorts of rows.
const SEED: u64 = 75;
const ROWS: usize = 24;

/// The cells of the damaged run that are 1 more than in the good one: row and column.
const DAMAGED: [(usize, usize); 4] = [
    (4, SELECTORS.start + Kind::Jmp as usize),
    (9, PC),
    (13, REGS.start + 2),
    (20, AUX0),
];

/// An input, and the outputs that the listed Rust's values make of it.
pub struct Sample {
    /// The name of the files, without their endings.
    pub name: &'static str,
    /// The files' endings and contents: the input, and what each program prints for it.
    pub files: [(&'static str, Vec<u8>); 3],
}

/// The zero row that document 01 works out, a run that keeps every rule, and the same damaged.
pub fn all(rust: Reference) -> [Sample; 3] {
    let zero = Run {
        masks: masks::plain(),
        rows: vec![[0; COLUMNS]],
    };
    let good = Run::draw(&mut Rng::new(SEED), ROWS);
    let mut damaged = good.clone();
    for (row, column) in DAMAGED {
        damaged.rows[row][column] += 1;
    }
    [("zero", zero), ("good", good), ("damaged", damaged)].map(|(name, run)| {
        let input = input::of_run(&run);
        let output = |text| expected::output::<Plain>(rust, text, &input).text().into();
        let (out, faults) = (output(Text::Counts), output(Text::Faults));
        let files = [("run", input), ("out", out), ("faults", faults)];
        Sample { name, files }
    })
}

/// Writes the files of all samples.
pub fn write(rust: Reference, folder: &Path) -> io::Result<()> {
    fs::create_dir_all(folder)?;
    for Sample { name, files } in all(rust) {
        for (ending, content) in files {
            fs::write(folder.join(format!("{name}.{ending}")), content)?;
        }
    }
    Ok(())
}
