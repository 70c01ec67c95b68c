//! `programs PROGRAM short`, `programs PROGRAM long N [SEED]`, `programs cases [PROGRAM]` and
//! `programs samples FOLDER`: see the harness's README.

use std::io::{self, Write};
use std::path::Path;
use std::process::ExitCode;

use olavm::{Reference, SOURCE_MISSING};
use programs::comparison::{alone, everything, Amounts};
use programs::{built, container, samples, Program, Text};
use tally::{Asked, NOT_COMPARED};

/// What a short comparison compares, and the first seed.
const SHORT: Amounts = Amounts {
    inputs: 300,
    rows: 60,
    limits: true,
};
const SEED: u64 = 0;

const USAGE: &str =
    "usage: programs PROGRAM short | PROGRAM long N [SEED] | cases [PROGRAM] | samples FOLDER\n\
                     a PROGRAM is rowdesk or faults";

/// What the command line asks for.
enum Task<'a> {
    Compare(Text, Asked),
    Cases(Text),
    Samples(&'a Path),
}

impl<'a> Task<'a> {
    fn of(arguments: &[&'a str]) -> Option<Self> {
        Some(match arguments {
            ["cases"] => Self::Cases(Text::Counts),
            ["cases", program] => Self::Cases(Text::printed_by(program)?),
            ["samples", folder] => Self::Samples(Path::new(*folder)),
            [program, asked @ ..] => Self::Compare(Text::printed_by(program)?, Asked::of(asked)?),
            [] => return None,
        })
    }
}

fn main() -> ExitCode {
    let arguments: Vec<String> = std::env::args().skip(1).collect();
    let arguments: Vec<&str> = arguments.iter().map(String::as_str).collect();
    let Some(task) = Task::of(&arguments) else {
        eprintln!("{USAGE}");
        return ExitCode::from(2);
    };
    match Reference::find() {
        Some(rust) => run(rust, task),
        None => run_alone(task),
    }
}

/// Does what can be done without the Rust.
fn run_alone(task: Task) -> ExitCode {
    match task {
        Task::Compare(text, _) => compare_alone(text),
        Task::Cases(_) | Task::Samples(_) => {
            eprintln!("{SOURCE_MISSING}");
            ExitCode::SUCCESS
        }
    }
}

fn run(rust: Reference, task: Task) -> ExitCode {
    match task {
        Task::Compare(text, Asked { count, seed }) => {
            compare(rust, text, seed, count.map_or(SHORT, long))
        }
        Task::Cases(text) => status(io::stdout().write_all(&container::file(rust, text))),
        Task::Samples(folder) => status(samples::write(rust, folder)),
    }
}

fn long(inputs: u64) -> Amounts {
    let rows = 2000;
    Amounts {
        inputs,
        rows,
        ..SHORT
    }
}

/// The program that `rt` builds; without it nothing is compared.
fn program(text: Text) -> Result<Program, ExitCode> {
    let path = built(text);
    if path.is_file() {
        return Ok(Program::at(text, path));
    }
    println!("{NOT_COMPARED}{} is not built", path.display());
    Err(ExitCode::FAILURE)
}

fn compare(rust: Reference, text: Text, seed: u64, amounts: Amounts) -> ExitCode {
    let program = match program(text) {
        Ok(program) => program,
        Err(status) => return status,
    };
    println!("seed {seed}, {} random inputs", amounts.inputs);
    let tally = everything(&program, rust, seed, amounts);
    println!("{tally}");
    println!("{}", tally.told(&format!("runs of {}", text.program())));
    tally.status()
}

fn compare_alone(text: Text) -> ExitCode {
    let program = match program(text) {
        Ok(program) => program,
        Err(status) => return status,
    };
    let tally = alone(&program, SEED);
    println!("{tally}");
    println!("{NOT_COMPARED}{SOURCE_MISSING}");
    ExitCode::from((tally.failed() > 0) as u8)
}

fn status(written: io::Result<()>) -> ExitCode {
    match written {
        Ok(()) => ExitCode::SUCCESS,
        Err(error) => {
            eprintln!("{error}");
            ExitCode::FAILURE
        }
    }
}
