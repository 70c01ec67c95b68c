//! Compares a program whose reads or writes fail, or move fewer bytes than they were asked to. Document
//! 01 is silent here; docs/DECISIONS.md says what is due: after a failure no further line on standard
//! output and exactly one on standard error, and the lines already printed stand.

use std::fs::File;
use std::io;
use std::process::Stdio;

use fields::{Plain, P};
use pairs::{Rng, Run};
use tally::{same, With};

use crate::cases::broken;
use crate::comparison::{same_lines, Comparison};
use crate::expected::Output;
use crate::input::{of_run, MASK_BYTES, ROW_BYTES};
use crate::program::{Chunks, Fault, Program};
use crate::session::Ended;
use crate::Text;

/// What could not be done.
#[derive(Clone, Copy, Debug, PartialEq, Eq)]
pub enum Failure {
    /// To read from standard input.
    Read,
    /// To write to standard output.
    Write,
}

impl Failure {
    /// The line on standard error of the program that prints such a text.
    pub fn line(self, text: Text) -> String {
        let failed = match self {
            Self::Read => "standard input could not be read",
            Self::Write => "standard output could not be written",
        };
        format!("{}: {failed}\n", text.program())
    }
}

/// The classes of what is compared here.
pub const READS: &str = "reads that fail";
/// See [`READS`].
pub const WRITES: &str = "writes that fail";
/// See [`READS`].
pub const SHORT: &str = "short reads and writes";

/// The signal of a write to a closed pipe.
const SIGPIPE: i32 = 13;
/// A program may read as much at once.
const BLOCK: usize = 1 << 16;
/// Rows of more bytes than a program reads at once, and of fewer.
const MANY: usize = 200;
const FEW: usize = 8;

/// A standard output that takes nothing.
#[derive(Clone, Copy, Debug)]
enum Lost {
    /// A device that is full.
    Full,
    /// A pipe that nobody reads, where a write may be a signal.
    Closed,
    /// The same, where the signal is ignored.
    ClosedAndIgnored,
}

impl Lost {
    const ALL: [Self; 3] = [Self::Full, Self::Closed, Self::ClosedAndIgnored];

    fn open(self) -> io::Result<Stdio> {
        match self {
            Self::Full => Ok(File::options().write(true).open("/dev/full")?.into()),
            _ => Ok(io::pipe()?.1.into()),
        }
    }
}

impl Comparison<'_> {
    /// Reads and writes that fail, and short ones.
    pub(crate) fn failures(&mut self, seed: u64) {
        let mut rng = Rng::new(seed);
        let [many, few] = [MANY, FEW].map(|rows| of_run(&broken(&mut rng, rows)));
        self.failed_reads(&many);
        self.unreadable_input();
        self.refusals_before_failed_reads(&few);
        self.failed_writes(&few);
        if self.program.text == Text::Faults {
            self.unused_outputs(&of_run(&Run::draw(&mut rng, FEW)));
        }
        self.short_reads_and_writes(&few, &many);
    }

    /// Reads that fail after so many bytes of a run: the lines of the pairs whose rows were read stand.
    fn failed_reads(&mut self, run: &[u8]) {
        let output = self.output::<Plain>(run);
        for after in read_before_failures(run.len()) {
            let whole = after.saturating_sub(MASK_BYTES) / ROW_BYTES;
            let due = (
                &output.of_first(whole.saturating_sub(1)),
                Some(Failure::Read),
            );
            let program = self.program.fault(Fault::ReadFailsAfter, after);
            let told = format!("a read fails after {after} bytes");
            self.told(READS, &told, &program, run, due);
            let program = program.fault(Fault::ReadMost, 1000);
            let told = format!("{told}, of at most 1000 each");
            self.told(READS, &told, &program, run, due);
        }
    }

    /// A standard input that cannot be read at all.
    fn unreadable_input(&mut self) {
        let folder = File::open("/").map_err(|error| error.to_string());
        let outcome = folder.and_then(|folder| {
            let session = self.program.start_on(Some(folder.into()), None)?;
            let output = session.line()?;
            let ended = self.program.ended_by(Some(Failure::Read));
            same((output, session.ended()?), (None, ended))
        });
        let told = |difference| format!("a folder as standard input: {difference}");
        self.tally
            .note(READS, With::TheHarness, outcome.map_err(told));
    }

    /// A program that has refused its input does not read on.
    fn refusals_before_failed_reads(&mut self, run: &[u8]) {
        let mut bad_masks = run.to_vec();
        bad_masks[..8].copy_from_slice(&P.to_le_bytes());
        let mut bad_row = run.to_vec();
        bad_row[MASK_BYTES + 3 * ROW_BYTES..][..8].copy_from_slice(&P.to_le_bytes());
        for (input, after) in [
            (bad_masks, MASK_BYTES),
            (bad_row, MASK_BYTES + 5 * ROW_BYTES + 8),
        ] {
            let due = self.output::<Plain>(&input);
            let program = self.program.fault(Fault::ReadFailsAfter, after);
            self.told(READS, "refused before", &program, &input, (&due, None));
        }
    }

    /// Writes that fail at once, for lines and for refusals, and after so many bytes.
    fn failed_writes(&mut self, run: &[u8]) {
        let due = self.output::<Plain>(run);
        let length = due.text().len();
        for after in [0, 1, 5, length / 2, length.saturating_sub(1)] {
            let due = (&due.cut(after), Some(Failure::Write));
            let program = self.program.fault(Fault::WriteFailsAfter, after);
            let told = format!("a write fails after {after} bytes");
            self.told(WRITES, &told, &program, run, due);
        }
        self.lost_outputs(run);
        // The lines of what was read are written before the next read: what fails first is told.
        let failing = |after| self.program.fault(Fault::ReadFailsAfter, after);
        let nothing = Output::default();
        for (after, first) in [
            (MASK_BYTES + 5 * ROW_BYTES, Failure::Write),
            (0, Failure::Read),
        ] {
            let program = failing(after).fault(Fault::WriteFailsAfter, 0);
            self.told(WRITES, "both fail", &program, run, (&nothing, Some(first)));
        }
    }

    /// Outputs that take nothing, for a run, its beginning, its masks and nothing at all.
    fn lost_outputs(&mut self, run: &[u8]) {
        let ends = [run.len(), MASK_BYTES + 2 * ROW_BYTES, MASK_BYTES, 0];
        for (output, end) in Lost::ALL.iter().flat_map(|o| ends.map(|end| (*o, end))) {
            let outcome = lost(self.program, output, &run[..end]);
            let has_failed = outcome.is_err();
            let told = |difference| format!("{output:?}, {end} bytes: {difference}");
            self.tally
                .note(WRITES, With::TheHarness, outcome.map_err(told));
            // There is no need to wait for another.
            if has_failed {
                return;
            }
        }
    }

    /// Outputs that take nothing, for a run that keeps every rule: where there is nothing to print, no
    /// write fails.
    fn unused_outputs(&mut self, run: &[u8]) {
        for output in Lost::ALL {
            let ended = ended_on(self.program, output, run, true);
            let outcome = ended.and_then(|ended| same(ended, self.program.ended_by(None)));
            let told = |difference| format!("{output:?}, nothing to print: {difference}");
            self.tally
                .note(WRITES, With::TheHarness, outcome.map_err(told));
        }
    }

    /// Reads and writes that move few bytes at a time alter nothing.
    fn short_reads_and_writes(&mut self, few: &[u8], many: &[u8]) {
        for (run, fault, most) in [
            (few, Fault::ReadMost, 1),
            (few, Fault::ReadMost, 7),
            (many, Fault::ReadMost, ROW_BYTES - 1),
            (many, Fault::ReadMost, ROW_BYTES + 1),
            (many, Fault::ReadMost, 4096),
            (few, Fault::WriteMost, 1),
            (few, Fault::WriteMost, 3),
            (many, Fault::WriteMost, 7),
            (many, Fault::WriteMost, 100),
        ] {
            let due = self.output::<Plain>(run);
            let program = self.program.fault(fault, most);
            let told = format!("{fault:?} {most}");
            self.told(SHORT, &told, &program, run, (&due, None));
        }
    }

    /// Compares a program's output and what it tells on standard error.
    fn told(
        &mut self,
        class: &str,
        name: &str,
        program: &Program,
        input: &[u8],
        due: (&Output, Option<Failure>),
    ) {
        let (due, failure) = due;
        let outcome = program.run(input, Chunks::Whole);
        let outcome = outcome.and_then(|(output, ended)| {
            same_lines(&output, &due.text())?;
            same(ended, program.ended_by(failure))
        });
        let told = |difference| format!("{name}: {difference}");
        self.tally
            .note(class, self.with(due), outcome.map_err(told));
    }
}

/// A program that is started on an output that takes nothing must say so and end though its input is
/// still open, or be ended by the signal that a closed pipe sends.
fn lost(program: &Program, output: Lost, input: &[u8]) -> Result<(), String> {
    // Without a line for what has arrived, the end of the input is what makes it write.
    let is_ended = input.len() < MASK_BYTES + 2 * ROW_BYTES;
    let ended = ended_on(program, output, input, is_ended)?;
    let by_signal = Ended {
        signal: Some(SIGPIPE),
        ..Ended::default()
    };
    match output {
        Lost::Closed if ended == by_signal => Ok(()),
        _ => same(ended, program.ended_by(Some(Failure::Write))),
    }
}

/// How a program ends that is started on an output that takes nothing, after an input that is ended or
/// still open.
fn ended_on(
    program: &Program,
    output: Lost,
    input: &[u8],
    is_ended: bool,
) -> Result<Ended, String> {
    let stdout = output.open().map_err(|error| error.to_string())?;
    let program = match output {
        Lost::ClosedAndIgnored => program.ignoring_sigpipe(),
        _ => program.clone(),
    };
    let mut session = program.start_on(None, Some(stdout))?;
    session.send(input)?;
    if is_ended {
        session.close();
    }
    session.ended()
}

/// How many bytes of a run of so many are read before a failure: none, some of the masks, all of them,
/// rows with and without a part, about one block and two, and all.
fn read_before_failures(length: usize) -> impl Iterator<Item = usize> {
    let row = |i: usize| MASK_BYTES + i * ROW_BYTES;
    let masks = [0, 1, row(0) - 1, row(0), row(0) + 1];
    let rows = [row(1) - 1, row(1), row(5), row(5) + 8, row(6) - 1];
    let blocks = [BLOCK - 1, BLOCK, BLOCK + 1, row(90), 2 * BLOCK];
    let most = [row(150) + 3, length];
    masks.into_iter().chain(rows).chain(blocks).chain(most)
}

impl Program {
    /// An end of its own, with a failure told or none.
    fn ended_by(&self, failure: Option<Failure>) -> Ended {
        Ended {
            errors: failure.map_or_else(String::new, |failure| failure.line(self.text)),
            signal: None,
        }
    }
}
