//! Shows that the comparison of expressions finds alterations: copies of the listed Rust, each with
//! one thing altered, are built and compared as the Rust itself is.

mod copies;
mod draw;
mod order;
mod outcome;
mod places;
mod source;

use std::process::ExitCode;

use copies::Workshop;
use draw::Draw;
use olavm::{Reference, SOURCE, SOURCE_MISSING};
use outcome::Outcome;
use source::Source;
use tally::Asked;

/// How many copies the gate has.
const SHORT: u64 = 40;

fn main() -> ExitCode {
    let arguments: Vec<String> = std::env::args().skip(1).collect();
    let arguments: Vec<&str> = arguments.iter().map(String::as_str).collect();
    let Some(Asked { count, seed }) = Asked::of(&arguments) else {
        eprintln!("usage: altered short | altered long N [SEED]");
        return ExitCode::from(2);
    };
    let Some(rust) = Reference::find() else {
        println!("no copy of the Rust was altered: {SOURCE_MISSING}");
        return ExitCode::SUCCESS;
    };
    match run(rust, count.unwrap_or(SHORT), seed) {
        Ok(code) => code,
        Err(message) => {
            eprintln!("{message}");
            ExitCode::FAILURE
        }
    }
}

fn run(rust: Reference, count: u64, seed: u64) -> Result<ExitCode, String> {
    let source = Source::read(SOURCE.as_ref())?;
    let workshop = Workshop::new(rust, &source)?;
    let mut draw = Draw::new(&source, seed);
    let count = usize::try_from(count).map_err(|error| error.to_string())?;
    let mut tally = Tally::default();
    while tally.built() < count {
        let drawn = draw.some(count - tally.built());
        if drawn.is_empty() {
            return Err("nothing is left to alter".into());
        }
        for (alteration, outcome) in std::iter::zip(&drawn, workshop.outcomes(&drawn)?) {
            tally.add(&outcome);
            println!("{outcome}: {}", source.told(alteration));
        }
    }
    println!("{tally}");
    Ok(ExitCode::from(!tally.is_well() as u8))
}

/// How many copies came out how.
#[derive(Default)]
struct Tally {
    found: usize,
    with_other_answers: usize,
    alter_nothing: usize,
    missed: usize,
    not_built: usize,
}

impl Tally {
    fn add(&mut self, outcome: &Outcome) {
        match outcome {
            Outcome::Found { answers_differ, .. } => {
                self.found += 1;
                self.with_other_answers += *answers_differ as usize;
            }
            Outcome::AltersNothing => self.alter_nothing += 1,
            Outcome::Missed => self.missed += 1,
            Outcome::NotBuilt => self.not_built += 1,
        }
    }

    fn built(&self) -> usize {
        self.found + self.alter_nothing + self.missed
    }

    /// None is missed, and most are found: were the copies not what is built, none would be.
    fn is_well(&self) -> bool {
        self.missed == 0 && 4 * self.found >= 3 * self.built()
    }
}

impl std::fmt::Display for Tally {
    fn fmt(&self, f: &mut std::fmt::Formatter) -> std::fmt::Result {
        write!(
            f,
            "{} altered copies of the Rust: {} found, {} of them with other answers; \
             {} alter nothing; {} missed ({} more are no Rust that compiles)",
            self.built(),
            self.found,
            self.with_other_answers,
            self.alter_nothing,
            self.missed,
            self.not_built
        )
    }
}
