//! What a program has to print: document 01's "A run" over the listed Rust's values.

use fields::{Residue, P};
use olavm::{Reference, Row};
use pairs::masks::are_accepted;
use pairs::{Run, MAX_ROWS};

use crate::input::{numbers, MASK_BYTES, ROW_BYTES};
use crate::Text;

/// An output, by the pairs that its lines are of.
#[derive(Clone, Debug, Default, PartialEq, Eq)]
pub struct Output {
    /// The text of each pair, which may be empty.
    pub pairs: Vec<String>,
    /// What follows: the line of a refusal, or nothing.
    pub end: String,
}

impl Output {
    /// What was printed for an input of so many pairs, of which every line begins with the pair's index.
    pub fn printed(text: &str, pairs: usize) -> Self {
        let mut output = Self {
            pairs: vec![String::new(); pairs],
            end: String::new(),
        };
        for line in text.split_inclusive('\n') {
            let first = line.split(' ').next().unwrap_or_default();
            let index = first.parse().unwrap_or(usize::MAX);
            *output.pairs.get_mut(index).unwrap_or(&mut output.end) += line;
        }
        output
    }

    /// All of it.
    pub fn text(&self) -> String {
        self.pairs.concat() + &self.end
    }

    /// What is printed of so many pairs, and nothing after it.
    pub fn of_first(&self, pairs: usize) -> Self {
        let pairs = self.pairs.iter().take(pairs).cloned().collect();
        let end = String::new();
        Self { pairs, end }
    }

    /// So many bytes of it, without the pairs of which nothing is left.
    pub fn cut(&self, mut bytes: usize) -> Self {
        let mut cut = |text: &String| {
            let left = bytes.min(text.len());
            bytes -= left;
            text[..left].to_owned()
        };
        let mut pairs: Vec<String> = self.pairs.iter().map(&mut cut).collect();
        pairs.retain(|text| !text.is_empty());
        let end = cut(&self.end);
        Self { pairs, end }
    }
}

/// The output for an input, its values computed over the field `F`.
pub fn output<F: Residue>(rust: Reference, text: Text, input: &[u8]) -> Output {
    let mut pairs = Vec::new();
    let refusal = print::<F>(rust, text, input, &mut pairs).err();
    let end = refusal.map_or_else(String::new, refused);
    Output { pairs, end }
}

/// The line of a refusal.
pub fn refused(number: u64) -> String {
    format!("refused {number}\n")
}

/// Prints the texts of pairs up to the first fault, whose number it gives.
fn print<F: Residue>(
    rust: Reference,
    text: Text,
    input: &[u8],
    printed: &mut Vec<String>,
) -> Result<(), u64> {
    let (masks, rest) = input.split_at_checked(MASK_BYTES).ok_or(2u64)?;
    let masks = numbers(masks);
    if !are_accepted(&masks) {
        return Err(5);
    }
    let mut run = Run::of_words(&masks, &[]);
    let mut print_pair = |run: &Run, i: usize| {
        printed.push(text.of_pair(i, &rust.values_over::<F>(&run.pair(i))));
    };
    for (before, bytes) in rest.chunks(ROW_BYTES).enumerate() {
        run.rows.push(accepted(bytes, before)?);
        if before > 0 {
            print_pair(&run, before - 1);
        }
    }
    let last = run.rows.len().checked_sub(1).ok_or(1u64)?;
    print_pair(&run, last);
    Ok(())
}

/// The row after so many others, "taken whole before its contents are judged".
fn accepted(bytes: &[u8], before: usize) -> Result<Row, u64> {
    let row = numbers(bytes);
    if bytes.len() < ROW_BYTES || before == MAX_ROWS {
        Err(1)
    } else if row.iter().any(|n| *n >= P) {
        Err(6)
    } else {
        Ok(row.try_into().expect("a whole row"))
    }
}
