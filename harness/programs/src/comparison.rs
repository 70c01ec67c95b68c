//! Compares a program with what it has to print.

use fields::{Plain, Plonky2Style, Residue, P};
use olavm::{Reference, COLUMNS};
use pairs::{Rng, Run, MAX_ROWS};
use tally::{same, Tally, With};

use crate::cases::{self, broken, Case};
use crate::due::{self, Pieces};
use crate::expected::{self, Output};
use crate::input::{of_run, MASK_BYTES, ROW_BYTES};
use crate::program::{Chunks, Program};
use crate::{chosen, Text};

/// The sizes in which inputs are delivered.
const CHUNKS: [Chunks; 7] = [
    Chunks::Of(1),
    Chunks::Of(7),
    Chunks::Of(751),
    Chunks::Of(753),
    Chunks::Of(4096),
    Chunks::Random(1),
    Chunks::Random(2),
];

/// The classes of small inputs, of inputs with chosen values, and of lines that must be there.
pub const FIXED: &str = "fixed inputs";
/// See [`FIXED`].
pub const CHOSEN: &str = "values at the edges";
/// See [`FIXED`].
pub const DUE: &str = "lines when due";

/// How much is compared.
#[derive(Clone, Copy, Debug)]
pub struct Amounts {
    /// Random inputs; for a program that prints values, a third as many with chosen ones besides.
    pub inputs: u64,
    /// The most rows of such an input.
    pub rows: usize,
    /// Whether inputs at the limit of 65,536 rows are compared too.
    pub limits: bool,
}

/// A comparison under way.
pub(crate) struct Comparison<'a> {
    pub(crate) program: &'a Program,
    rust: Option<Reference>,
    pub(crate) tally: Tally,
}

/// Compares everything; each random input follows from its seed, and the seeds from the first.
pub fn everything(program: &Program, rust: Reference, seed: u64, amounts: Amounts) -> Tally {
    let mut comparison = Comparison::new(program, Some(rust));
    comparison.inputs(seed, amounts);
    comparison.chunks();
    comparison.due(seed);
    comparison.failures(seed);
    if amounts.limits {
        comparison.limits(seed);
    }
    comparison.tally
}

/// Compares what is printed for fixed and for random inputs, and nothing else.
pub fn printed(program: &Program, rust: Reference, seed: u64, amounts: Amounts) -> Tally {
    let mut comparison = Comparison::new(program, Some(rust));
    comparison.inputs(seed, amounts);
    comparison.tally
}

/// Compares what can be compared without the Rust: when lines are there, and what is done where reads
/// and writes fail, with what the program prints for the same input undisturbed.
pub fn alone(program: &Program, seed: u64) -> Tally {
    let mut comparison = Comparison::new(program, None);
    comparison.due(seed);
    comparison.failures(seed);
    comparison.tally
}

impl<'a> Comparison<'a> {
    fn new(program: &'a Program, rust: Option<Reference>) -> Self {
        Self {
            program,
            rust,
            tally: Tally::default(),
        }
    }

    /// The output that is due for an input; without the Rust, the program's own.
    pub(crate) fn output<F: Residue>(&self, input: &[u8]) -> Output {
        match self.rust {
            Some(rust) => expected::output::<F>(rust, self.program.text, input),
            None => {
                let printed = self.program.output(input, Chunks::Whole);
                let rows = input.len().saturating_sub(MASK_BYTES) / ROW_BYTES;
                Output::printed(&printed.unwrap_or_else(|error| error), rows)
            }
        }
    }

    /// What an output is compared with: the texts of pairs are made of the Rust's values.
    pub(crate) fn with(&self, due: &Output) -> With {
        match self.rust {
            Some(_) if !due.pairs.is_empty() => With::TheRust,
            _ => With::TheHarness,
        }
    }

    fn case<F: Residue>(&mut self, class: &str, case: &Case, chunks: Chunks) {
        let due = self.output::<F>(&case.input);
        let output = self.program.output(&case.input, chunks);
        let outcome = output.and_then(|output| same_lines(&output, &due.text()));
        let told = |difference| format!("{}, {chunks:?}: {difference}", case.name);
        self.tally
            .note(class, self.with(&due), outcome.map_err(told));
    }

    /// Fixed inputs and random ones, and those of which the values have chosen signed forms.
    fn inputs(&mut self, seed: u64, amounts: Amounts) {
        for case in cases::fixed(self.program.text) {
            self.case::<Plain>(FIXED, &case, Chunks::Whole);
        }
        for n in 0..amounts.inputs {
            let case = cases::random(seed.wrapping_add(n), amounts.rows);
            self.case::<Plonky2Style>("random inputs", &case, Chunks::Whole);
        }
        if self.program.text == Text::Faults {
            for n in 0..amounts.inputs.div_ceil(3) {
                let case = chosen::random(seed.wrapping_add(n));
                self.case::<Plonky2Style>(CHOSEN, &case, Chunks::Whole);
            }
        }
    }

    /// Inputs that a pipe delivers in odd sizes.
    fn chunks(&mut self) {
        for chunks in CHUNKS {
            for case in cases::one_of_each_sort(self.program.text) {
                self.case::<Plain>("odd chunks", &case, chunks);
            }
        }
    }

    /// Lines that are there when they are due.
    fn due(&mut self, seed: u64) {
        let mut rng = Rng::new(seed);
        for pieces in [Pieces::Rows, Pieces::Halves, Pieces::TwoAndAHalf] {
            for rows in pieces.runs() {
                let input = of_run(&broken(&mut rng, *rows));
                let due = self.output::<Plain>(&input);
                let outcome = due::of_pairs(self.program, &input, &due, pieces);
                let is_late = outcome.is_err();
                let told = |difference| format!("{rows} rows, {pieces:?}: {difference}");
                self.tally.note(DUE, self.with(&due), outcome.map_err(told));
                // There is no need to wait for another.
                if is_late {
                    return;
                }
            }
        }
        let mut run = broken(&mut rng, 3);
        run.rows[2][COLUMNS - 1] = P;
        let bad_row = of_run(&run);
        run.masks[0] = P;
        let bad_masks = &of_run(&run)[..MASK_BYTES];
        for input in [&bad_row[..], bad_masks] {
            let due = self.output::<Plain>(input);
            let outcome = due::of_refusal(self.program, input, &due);
            self.tally
                .note("refusals when due", With::TheHarness, outcome);
        }
    }

    /// 65,536 rows, kept and damaged, and one row or part of one more.
    fn limits(&mut self, seed: u64) {
        let mut rng = Rng::new(seed);
        let mut run = Run::draw(&mut rng, MAX_ROWS);
        let kept = of_run(&run);
        run.damage(&mut rng);
        let damaged = of_run(&run);
        let more = |name: &str, more: &[u8]| Case {
            name: name.into(),
            input: [&damaged[..], more].concat(),
        };
        let kept = Case {
            name: "kept".into(),
            input: kept,
        };
        let cases = [
            kept,
            more("damaged", &[]),
            more("a byte more", &[0]),
            more("a 65,537th row", &[0; ROW_BYTES]),
            more("a 65,537th row that is bad", &[255; ROW_BYTES]),
        ];
        for case in cases {
            self.case::<Plonky2Style>("65,536 rows", &case, Chunks::Whole);
        }
    }
}

/// Whether two outputs are the same to the byte; the difference names the first other line.
pub(crate) fn same_lines(output: &str, due: &str) -> Result<(), String> {
    if output == due {
        return Ok(());
    }
    let mut lines = output.split_inclusive('\n');
    for (i, due) in due.split_inclusive('\n').enumerate() {
        same(lines.next(), Some(due))
            .map_err(|difference| format!("line {}: {difference}", i + 1))?;
    }
    same(lines.next(), None)
}
