//! What a comparison is asked for, and counts of what was compared.

mod asked;

pub use asked::Asked;

use std::fmt::{self, Debug};
use std::process::ExitCode;

/// How the line begins by which a program says that it compared something, or that it did not.
pub const COMPARED: &str = "compared with the Rust: ";
/// See [`COMPARED`].
pub const NOT_COMPARED: &str = "NOT compared with the Rust: ";

/// Comparisons by class, and the first that differed.
#[derive(Clone, Debug, Default)]
pub struct Tally {
    classes: Vec<(String, Count)>,
    with_the_rust: Count,
    first_difference: Option<String>,
}

/// What something is compared with.
#[derive(Clone, Copy, Debug, PartialEq, Eq)]
pub enum With {
    /// What the listed Rust computed.
    TheRust,
    /// What the harness says alone: document 01's refusals, arithmetic, what an input is meant to be.
    TheHarness,
}

#[derive(Clone, Copy, Debug, Default)]
struct Count {
    passed: u64,
    failed: u64,
}

impl With {
    /// What the answer to a call is compared with, which the harness refuses by a number, or the
    /// Rust answers where that is 0.
    pub fn answer(number: u64) -> Self {
        match number {
            0 => Self::TheRust,
            _ => Self::TheHarness,
        }
    }
}

impl Tally {
    /// Counts a comparison; a difference comes with its description.
    pub fn note(&mut self, class: &str, with: With, outcome: Result<(), String>) {
        if with == With::TheRust {
            self.with_the_rust.add(outcome.is_ok());
        }
        self.count(class).add(outcome.is_ok());
        if let Err(difference) = outcome {
            self.first_difference
                .get_or_insert_with(|| format!("{class}\n{difference}"));
        }
    }

    /// The class's count, which begins where the class first occurs.
    fn count(&mut self, class: &str) -> &mut Count {
        let place = self.classes.iter().position(|(name, _)| name == class);
        let place = place.unwrap_or_else(|| {
            self.classes.push((class.to_owned(), Count::default()));
            self.classes.len() - 1
        });
        &mut self.classes[place].1
    }

    /// The exit status of a program that compared this: who compared nothing with the Rust fails too.
    pub fn status(&self) -> ExitCode {
        let is_well = self.failed() == 0 && self.with_the_rust.passed > 0;
        ExitCode::from(!is_well as u8)
    }

    /// The line by which a program says how many of such things it compared.
    pub fn told(&self, things: &str) -> String {
        let Count { passed, failed } = self.with_the_rust;
        let (rust, all) = (passed + failed, self.passed() + self.failed());
        match rust {
            0 => format!("{NOT_COMPARED}{all} {things}, and no value of the Rust among them"),
            _ => format!(
                "{COMPARED}{rust} {things}, {failed} differ; with the harness alone: {}, {} differ",
                all - rust,
                self.failed() - failed
            ),
        }
    }

    /// Comparisons without a difference.
    pub fn passed(&self) -> u64 {
        self.classes.iter().map(|(_, count)| count.passed).sum()
    }

    /// Comparisons with a difference.
    pub fn failed(&self) -> u64 {
        self.classes.iter().map(|(_, count)| count.failed).sum()
    }

    /// Comparisons of a class with a difference.
    pub fn failed_in(&self, class: &str) -> u64 {
        let mut classes = self.classes.iter();
        let found = classes.find(|(name, _)| name == class);
        found.map_or(0, |(_, count)| count.failed)
    }
}

impl Count {
    fn add(&mut self, is_same: bool) {
        match is_same {
            true => self.passed += 1,
            false => self.failed += 1,
        }
    }
}

impl fmt::Display for Tally {
    fn fmt(&self, f: &mut fmt::Formatter) -> fmt::Result {
        for (class, count) in &self.classes {
            write!(f, "{class:<40} {:>10} passed", count.passed)?;
            if count.failed > 0 {
                write!(f, " {:>10} failed", count.failed)?;
            }
            writeln!(f)?;
        }
        if let Some(difference) = &self.first_difference {
            writeln!(f, "the first difference: {difference}")?;
        }
        let (passed, failed) = (self.passed(), self.failed());
        write!(f, "in all: {passed} passed, {failed} failed")
    }
}

/// Whether what was found is what was due; the difference names both.
pub fn same<T: PartialEq + Debug>(found: T, due: T) -> Result<(), String> {
    if found == due {
        Ok(())
    } else {
        Err(format!("{found:?}, not {due:?}"))
    }
}
