//! `symbolic check`, `listing`, `trees` and `answers COUNT`: see the harness's README.

use std::path::Path;
use std::process::ExitCode;
use std::{env, fs, io};

use olavm::{Reference, SOURCE_MISSING, VALUES};
use symbolic::expr::Expr;
use symbolic::program::Program;
use symbolic::{differences, listed, listing, Kind, Point};
use tally::{COMPARED, NOT_COMPARED};

/// The file that holds the program, from the repository's root.
const LISTING: &str = "crates/table_program/specs/Listing.antt";

fn main() -> ExitCode {
    let arguments: Vec<String> = env::args().skip(1).collect();
    let arguments: Vec<&str> = arguments.iter().map(String::as_str).collect();
    let rust = Reference::find().ok_or(SOURCE_MISSING.to_owned());
    let done = match arguments[..] {
        ["check"] => return check(rust.ok()),
        ["listing"] => rust.and_then(print_listing),
        ["trees"] => rust.and_then(print_trees),
        ["answers", count] => rust.and_then(|rust| print_answers(rust, count)),
        _ => {
            eprintln!("usage: symbolic check | listing | trees | answers COUNT");
            return ExitCode::from(2);
        }
    };
    match done {
        Ok(()) => ExitCode::SUCCESS,
        Err(message) => {
            eprintln!("{message}");
            ExitCode::FAILURE
        }
    }
}

/// Holds the repository's program to the Rust's expressions.
fn check(rust: Option<Reference>) -> ExitCode {
    let Some(rust) = rust else {
        println!("{NOT_COMPARED}{SOURCE_MISSING}");
        return ExitCode::SUCCESS;
    };
    match compared(rust) {
        Ok(differences) => {
            for difference in &differences {
                println!("{difference}");
            }
            println!(
                "{COMPARED}{VALUES} constraints as expressions, for all inputs, and their fold; {} differ",
                differences.len()
            );
            ExitCode::from(!differences.is_empty() as u8)
        }
        Err(message) => {
            println!("{COMPARED}constraints as expressions, not the same: {message}");
            ExitCode::FAILURE
        }
    }
}

fn compared(rust: Reference) -> Result<Vec<String>, String> {
    let text = fs::read_to_string(
        Path::new(env!("CARGO_MANIFEST_DIR"))
            .join("../..")
            .join(LISTING),
    )
    .map_err(|error| format!("{LISTING}: {error}"))?;
    listed::consumer_calls(rust)?;
    let constraints = listed::constraints(rust)?;
    let program = listing::read(&text)?;
    let differences = differences(&constraints, &program.leaves(VALUES)?);
    if differences.is_empty() {
        println!("{}", counted(&constraints, &program));
        if text != listing::write(&Program::of(&constraints)?) {
            return Err(format!(
                "{LISTING} is not what `harness/run listing` writes"
            ));
        }
    }
    Ok(differences)
}

/// How many constraints of each kind there are, and how long the program is.
fn counted(constraints: &[Expr], program: &Program) -> String {
    let kinds = Kind::ALL.map(|kind| {
        let count = constraints.iter().filter(|e| Kind::of(**e) == kind).count();
        format!("{count} {kind}")
    });
    let (words, constants) = (program.words.len(), program.constants.len());
    format!("{}; {words} words, {constants} constants", kinds.join(", "))
}

fn print_listing(rust: Reference) -> Result<(), String> {
    let program = Program::of(&listed::constraints(rust)?)?;
    print!("{}", listing::write(&program));
    Ok(())
}

fn print_trees(rust: Reference) -> Result<(), String> {
    for (i, e) in listed::constraints(rust)?.into_iter().enumerate() {
        println!("{} ({}): {e}", i + 1, Kind::of(e));
    }
    Ok(())
}

/// Reads the residues of so many points, and prints what the Rust answers there, a line for each.
fn print_answers(rust: Reference, count: &str) -> Result<(), String> {
    let count: usize = count.parse().map_err(|_| "no count")?;
    let text = io::read_to_string(io::stdin()).map_err(|error| error.to_string())?;
    let residues: Result<Vec<u64>, _> = text.split_whitespace().map(str::parse).collect();
    let mut residues = residues.map_err(|_| "no number")?.into_iter();
    for _ in 0..count {
        let point = Point::draw(|| residues.next().expect("a residue for every place"));
        let answers = point.answers(rust).into_iter();
        println!(
            "{}",
            answers.map(|n| n.to_string()).collect::<Vec<_>>().join(" ")
        );
    }
    Ok(())
}
