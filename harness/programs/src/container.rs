//! A file of cases: for each, the length of the input in 8 bytes, low byte first, the input, the
//! length of the expected output likewise, and the expected output.

use fields::Plain;
use olavm::Reference;

use crate::{cases, chosen, expected, Text};

/// The random cases of the file, and the most rows of each.
const RANDOM: u64 = 60;
const ROWS: usize = 10;

/// The random cases with chosen values, of a program that prints values.
const CHOSEN: u64 = 10;

/// The most bytes of an input and of an output, for which those who replay the file have room.
const MOST_BYTES: usize = 65_536;

/// The bytes of the file for a program; the expected outputs are made by the listed Rust.
pub fn file(rust: Reference, text: Text) -> Vec<u8> {
    let mut cases = cases::fixed(text);
    cases.extend((0..RANDOM).map(|seed| cases::random(seed, ROWS)));
    if text == Text::Faults {
        cases.extend((0..CHOSEN).map(chosen::random));
    }
    let mut file = Vec::new();
    for case in cases {
        let output = expected::output::<Plain>(rust, text, &case.input).text();
        for part in [&case.input[..], output.as_bytes()] {
            assert!(part.len() <= MOST_BYTES, "{} is too long", case.name);
            file.extend((part.len() as u64).to_le_bytes());
            file.extend(part);
        }
    }
    file
}
